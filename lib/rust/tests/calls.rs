//! What the documentation doesn't show: refusals with their places, misuse, numbers past 64 bits, and longer texts.

use dimacs::arrays::{self, Graph, MaxInstance, MinInstance};
use dimacs::reading::{self, Arcs};
use dimacs::texts::{self, Distance, Kind, Paths};
use dimacs::{Error, Place, Refused};

const ARC: MaxInstance = MaxInstance { nodes: 2, source: 1, sink: 2, tails: &[1], heads: &[2], caps: &[7] };

fn refused(place: Place, reason: &str) -> Refused {
    Refused { place, reason: reason.to_owned() }
}

#[test]
fn refusals_have_places() {
    assert_eq!(arrays::certify_max(&ARC, &[8]), Err(Error::Refused(refused(Place::Arc(1), "AboveCap"))));
    let text = Place::Text { text: "solution".to_owned(), line: 1, field: 2 };
    assert_eq!(
        texts::certify_max("p max 2 0\nn 1 s\nn 2 t\n", "s x\n"),
        Err(Error::Refused(refused(text, "BadNumber")))
    );
    let set = Place::Text { text: "certificate".to_owned(), line: 0, field: 0 };
    let supplies = MinInstance { nodes: 1, tails: &[], heads: &[], lows: &[], caps: &[], costs: &[], supplies: &[0] };
    assert_eq!(arrays::judge_infeasible(&supplies, &[true]), Err(Error::Refused(refused(set, "NotViolated"))));
}

#[test]
fn misuse_is_no_refusal() {
    assert_eq!(
        arrays::judge_max(&ARC, &[7], &[true]),
        Err(Error::WrongLength { array: "inside", items: 1, wanted: 2 })
    );
    let below = MaxInstance { caps: &[-1], ..ARC };
    assert_eq!(arrays::solve_max(&below, 9), Err(Error::PastLimit(refused(Place::Arc(1), "BoundOrder"))));
    let many = MaxInstance { nodes: u32::MAX, ..ARC };
    assert_eq!(arrays::solve_max(&many, 9), Err(Error::PastLimit(refused(Place::Node(134_217_729), "NumberRange"))));
    assert_eq!(arrays::solve_max(&ARC, 0), Err(Error::GaveUp));
    let street = Graph { nodes: 1, tails: &[], heads: &[], weights: &[] };
    assert_eq!(arrays::certify_paths(&street, 2, &[0]), Err(Error::PastLimit(refused(Place::Node(2), "NodeRange"))));
}

#[test]
fn empty_slices_do() {
    let none = MaxInstance { tails: &[], heads: &[], caps: &[], ..ARC };
    assert_eq!(arrays::certify_max(&none, &[]).unwrap().inside, [true, false]);
    assert_eq!(texts::judge_max("", "", "").unwrap_err().to_string(), "x instance 1 0 ProblemMissing");
}

#[test]
fn texts_longer_than_their_room_do() {
    let mut queries = "p aux sp p2p 500\n".to_owned();
    queries.push_str(&"q 1 2\n".repeat(500));
    let labels = format!("p dist 2 1\nt 1 1\nd 2 {} 1\n", i64::MAX);
    let graph = format!("p sp 2 1\na 1 2 {}\n", i64::MAX);
    match texts::judge_paths(graph, queries, labels).unwrap() {
        Paths::Pairs(pairs) => {
            assert_eq!((pairs.len(), pairs[499].distance), (500, Distance::Is(i64::MAX.into())));
        }
        other => panic!("{other:?}"),
    }
    let beyond = texts::judge_paths("p sp 2 1\na 1 2 5\n", "p aux sp p2p 1\nq 1 2\n", "p dist 2 1\nt 1 0 4\n");
    match beyond.unwrap() {
        Paths::Pairs(pairs) => assert_eq!(pairs[0].distance, Distance::Beyond(4)),
        other => panic!("{other:?}"),
    }
}

#[test]
fn each_kind_is_itself() {
    let texts = [
        (Kind::Max, "p max 2 0\nn 1 s\nn 2 t\n"),
        (Kind::Min, "p min 1 0\n"),
        (Kind::Gr, "p sp 1 0\n"),
        (Kind::Query, "p aux sp ss 0\n"),
        (Kind::Solution, "s 0\n"),
        (Kind::Cut, "p cut 1 0\n"),
        (Kind::Pot, "p pot 1 0\n"),
        (Kind::Dist, "p dist 1 0\n"),
        (Kind::Distances, "p distances 1 0\n"),
    ];
    for (kind, text) in texts {
        assert_eq!(texts::convert(kind, text).as_deref(), Ok(text), "{kind:?}");
    }
}

#[test]
fn answers_are_explained() {
    let (max, flow, cut) = ("p max 2 1\nn 1 s\nn 2 t\na 1 2 7\n", "s 7\nf 1 2 7\n", "p cut 2 1\nu 1\n");
    let yes = texts::explain(&["judge-max", "I", "S", "C"], max, flow, cut).unwrap();
    assert!(yes.starts_with("v max 7\non the source's side of the cut, 1 of the 2 nodes: 1\n"));
    let gave_up = texts::explain(&["solve-max", "I", "S", "C", "--limit", "0"], max, "", "").unwrap();
    assert!(gave_up.starts_with("g limit\nthe limit, 0, counts flows"));
    let empty = texts::explain(&["judge-max", "I", "S", "C"], max, "", cut).unwrap();
    assert!(!empty.contains("a solve run"), "{empty}");
    let not_utf8 = ["judge-max".as_bytes(), b"\xff", b"S", b"C"];
    assert_eq!(texts::explain(&not_utf8, max, flow, cut), Err(Error::NoCommand));
    for words in [&["judge-max", "I", "S"][..], &["judge-max\0I", "S", "C"]] {
        assert_eq!(texts::explain(words, max, flow, cut), Err(Error::NoCommand));
    }
}

#[test]
fn more_nodes_than_lines_are_read_and_written() {
    let set = "p cut 99 2\nu 2\nu 98\n";
    assert_eq!(reading::write_cut(&reading::read_cut(set).unwrap()).as_deref(), Ok(set));
    let potentials = "p pot 99 1\ny 98 -7\n";
    assert_eq!(reading::write_potentials(&reading::read_potentials(potentials).unwrap()).as_deref(), Ok(potentials));
    let (far, labels) = ("p distances 99 1\nt 1 1\nd 98 7\n", "p dist 99 1\nt 1 1\nd 98 7 1\n");
    let block = reading::read_labels(labels, 1).unwrap();
    assert_eq!(reading::read_distances(far, 1).as_ref(), Ok(&block.distances));
    assert_eq!(reading::write_distances(1, &block.distances).as_deref(), Ok(far));
    assert_eq!(reading::write_labels(1, &block.distances, &block.predecessors).as_deref(), Ok(labels));
    assert_eq!(reading::read_labels("p dist 2 2\nt 2 0\nt 1 0 7\n", 1).unwrap().radius, Some(7));
}

#[test]
fn what_is_not_read_has_its_line() {
    let zero = reading::read_graph("p sp 2 1\na 1 2 7\0\n");
    assert_eq!(zero.unwrap_err().to_string(), "x instance 2 4 BadNumber");
    let most = "9223372036854775808";
    let far = reading::read_potentials(format!("p pot 2 1\ny 2 {most}\n"));
    assert_eq!(far, Err(Error::Refused(refused(Place::Node(2), "NumberRange"))));
    let arcs = Arcs::from(ARC);
    let much = reading::read_solution(format!("s {most}\n"), arcs);
    assert_eq!(much.unwrap_err().to_string(), "x solution 1 2 NumberRange");
    let few = Arcs { nodes: 1, ..arcs };
    assert_eq!(reading::read_solution("s 0\n", few), Err(Error::PastLimit(refused(Place::Arc(1), "NodeRange"))));
    let short = Arcs { heads: &[], ..arcs };
    assert_eq!(
        reading::write_solution(0, short, &[0]),
        Err(Error::WrongLength { array: "heads", items: 0, wanted: 1 })
    );
}
