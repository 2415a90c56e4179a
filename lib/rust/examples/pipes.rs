//! The network of `pipes.max` in slices, and a flow that somebody found by hand: better ones are asked for until none is.

use dimacs::arrays::{certify_max, Error, MaxInstance};

fn main() -> Result<(), Error> {
    let pipes = MaxInstance {
        nodes: 5,
        source: 1,
        sink: 5,
        tails: &[1, 1, 2, 2, 3, 4, 4],
        heads: &[2, 3, 3, 4, 5, 3, 5],
        caps: &[10, 6, 3, 4, 8, 5, 7],
    };
    let mut flows = vec![4, 6, 0, 4, 6, 0, 4];
    loop {
        match certify_max(&pipes, &flows) {
            Ok(yes) => {
                println!("{flows:?} carries {} by the cut {:?}", yes.value, yes.inside);
                return Ok(());
            }
            Err(Error::NotOptimal(better)) => {
                println!("{flows:?} isn't maximum");
                flows = better;
            }
            Err(no) => return Err(no),
        }
    }
}
