//! Writes a net that the generator for tests makes, in planar_code: `net N SHAPE SEED >FILE`, with a shape
//! as `Turned` or `DoubleWheel`.

use std::env;
use std::error::Error;
use std::io::{self, Write};

use second::generate::nets::{net, SHAPES};
use second::generate::Random;

/// The three arguments.
fn main() -> Result<(), Box<dyn Error>> {
    let arguments: Vec<String> = env::args().skip(1).collect();
    let [n, shape, seed] = &arguments[..] else {
        return Err("usage: net N SHAPE SEED".into());
    };
    let named = |known: &&_| format!("{known:?}") == *shape;
    let shape = SHAPES.iter().find(named).ok_or("no such shape")?;
    let n = n.parse::<u8>()?.max(4);
    let net = net(n, *shape, &mut Random::new(seed.parse()?));
    io::stdout().write_all(&net.bytes())?;
    Ok(())
}
