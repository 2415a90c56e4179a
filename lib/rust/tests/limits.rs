//! The ends of 64 bits, in and out.

use dimacs::arrays::{self, Graph, MaxInstance, MinInstance, UNREACHED};
use dimacs::Error;

const MOST: i64 = i64::MAX;
const LEAST: i64 = i64::MIN;

#[test]
fn maximum_flows() {
    let caps = [MOST, MOST, 0, MOST - 1];
    let wide = MaxInstance { nodes: 3, source: 1, sink: 3, tails: &[1, 1, 2, 2], heads: &[2, 3, 3, 3], caps: &caps };
    let solved = arrays::solve_max(&wide, dimacs::LIMIT).unwrap();
    assert_eq!((solved.value, &solved.flows[..]), (2 * i128::from(MOST) - 1, &[MOST - 1, MOST, 0, MOST - 1][..]));
    assert_eq!(arrays::judge_max(&wide, &solved.flows, &solved.inside), Ok(solved.value));
    let below = arrays::certify_max(&wide, &[MOST - 1, LEAST, 0, LEAST]);
    assert_eq!(below.unwrap_err().to_string(), "x arc 2 BelowLow");
    let better = arrays::certify_max(&wide, &[0, MOST, 0, 0]);
    assert!(matches!(better, Err(Error::NotOptimal(it)) if it == solved.flows));
}

#[test]
fn least_costs() {
    let least = MinInstance {
        nodes: 2,
        tails: &[1, 1, 2],
        heads: &[2, 2, 2],
        lows: &[0, 0, MOST],
        caps: &[MOST, MOST, MOST],
        costs: &[LEAST, MOST, 0],
        supplies: &[9, -9],
    };
    let cost = 9 * i128::from(LEAST);
    assert_eq!(arrays::judge_min(&least, &[9, 0, MOST], &[LEAST, 0]), Ok(cost));
    assert_eq!(arrays::judge_min(&least, &[9, 0, MOST], &[LEAST, MOST]).unwrap_err().to_string(), "x arc 1 NotTight");
    let solved = arrays::solve_min(&least, dimacs::LIMIT).unwrap();
    assert_eq!((solved.value, &solved.flows[..]), (cost, &[9, 0, MOST][..]));
    assert_eq!(arrays::judge_min(&least, &solved.flows, &solved.potentials), Ok(cost));
    let short = MinInstance { supplies: &[LEAST, MOST], ..least };
    assert!(matches!(arrays::certify_infeasible(&short), Ok(set) if arrays::judge_infeasible(&short, &set) == Ok(())));
}

#[test]
fn distances() {
    let graph = Graph { nodes: 3, tails: &[1, 2, 1], heads: &[2, 3, 3], weights: &[LEAST, MOST, 0] };
    assert_eq!(arrays::certify_paths(&graph, 1, &[0, LEAST, -1]), Ok(vec![0, 1, 2]));
    assert_eq!(arrays::judge_paths(&graph, 1, &[0, LEAST, -1], &[0, 1, 2]), Ok(()));
    assert_eq!(arrays::certify_paths(&graph, 1, &[0, UNREACHED, -1]).unwrap_err().to_string(), "x arc 1 Escapes");
    let far = Graph { weights: &[MOST - 1, 0, MOST - 1], ..graph };
    assert_eq!(arrays::solve_paths(&far, 1).unwrap().distances, [0, MOST - 1, MOST - 1]);
    assert_eq!(arrays::solve_paths(&Graph { weights: &[MOST - 1, 1, MOST], ..graph }, 1), Err(Error::GaveUp));
}
