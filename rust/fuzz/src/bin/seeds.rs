//! Writes order files with runs of every sort, their drawing files in both styles, and nets of every shape,
//! into a folder.

use std::path::Path;
use std::{env, fs, io};

use second::generate::nets::{net, SHAPES};
use second::generate::{order, Random, RUNS};
use second::{drawing_file, order_file, STYLES};

/// The folder is the one argument.
fn main() -> io::Result<()> {
    let folder = env::args().nth(1).expect("usage: seeds FOLDER");
    let folder = Path::new(&folder);
    for runs in RUNS {
        for n in [3, 4, 5, 6, 8, 12, 20] {
            let order = order(n, runs, &mut Random::new(n.into())).bytes();
            for style in STYLES {
                let drawing = order_file::read(style, &order).map_err(io::Error::other)?;
                let file = drawing_file::write(&drawing).map_err(io::Error::other)?;
                fs::write(folder.join(format!("{runs:?}-{n}-{style:?}.drawing")), file)?;
            }
            fs::write(folder.join(format!("{runs:?}-{n}.order")), order)?;
        }
    }
    for shape in SHAPES {
        for n in [4, 5, 6, 8, 12, 20] {
            let net = net(n, shape, &mut Random::new(n.into())).bytes();
            fs::write(folder.join(format!("{shape:?}-{n}.pc")), net)?;
        }
    }
    Ok(())
}
