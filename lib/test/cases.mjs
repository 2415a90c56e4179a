// Counts what passes: the tests of a file, by their names.
let passed = 0, failed = 0;

/** Runs a test, and prints why it fails. */
export async function counted(name, test) {
    try {
        await test();
        passed++;
    } catch (why) {
        failed++;
        console.log(`FAILED: ${name}: ${why.stack}`);
    }
}

/** Runs tests. */
export async function countedAll(tests, ...words) {
    for (const [name, test] of Object.entries(tests)) await counted(name, () => test(...words));
}

/** Prints the counts, and gives the status. */
export function finished() {
    console.log(`${passed} passed, ${failed} failed`);
    return failed ? 1 : 0;
}
