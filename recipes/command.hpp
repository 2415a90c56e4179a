// What the recipes in C++ share: files, and how they run dimacs. Copy this file with the one that you change.
#include <sys/wait.h>
#include <unistd.h>

#include <cstdio>
#include <cstdlib>
#include <fstream>
#include <iostream>
#include <iterator>
#include <string>
#include <vector>

/// Runs dimacs, and returns its exit status. The variable DIMACS names it, if it isn't on the path.
inline int run(std::vector<const char*> words) {
    const char* program = std::getenv("DIMACS") ? std::getenv("DIMACS") : "dimacs";
    words.insert(words.begin(), program);
    words.push_back(nullptr);
    const pid_t child = fork();
    if (child == 0) {
        execvp(program, const_cast<char**>(words.data()));
        std::cerr << "can't run " << program << ". Put dimacs on the path, or name it by DIMACS" << std::endl;
        _exit(3);
    }
    int status = 0;
    if (child < 0 || waitpid(child, &status, 0) < 0) return std::perror("can't run dimacs"), 3;
    return WIFEXITED(status) ? WEXITSTATUS(status) : 3;
}

/// Has dimacs explain the fault of a text, and returns its exit status.
inline int explain(const char* kind, const char* path) { return run({"explain", "show", kind, path}); }

/// The text of a file. The program ends if it can't be opened.
inline std::string read(const char* path) {
    std::ifstream file(path, std::ios::binary);
    if (!file) std::cerr << "can't open " << path << '\n', std::exit(3);
    return {std::istreambuf_iterator<char>(file), {}};
}

inline void write(const char* path, const std::string& text) { std::ofstream(path, std::ios::binary) << text; }
