//! `gate-cases FOLDER`: writes the files for the gate programs, `NAME.module`, and beside each the whole output that is
//! due of the box's program, `NAME.box`, and of the plate's, `NAME.plate`.

use modules::gate::{cases, Case};
use std::path::Path;
use std::process::ExitCode;
use std::{env, fs, io};

fn main() -> ExitCode {
    let words: Vec<String> = env::args().skip(1).collect();
    let [folder] = &words[..] else {
        eprintln!("usage: gate-cases FOLDER");
        return ExitCode::FAILURE;
    };
    for case in cases() {
        if let Err(error) = write(Path::new(folder), &case) {
            eprintln!("{folder}: {}: {error}", case.name);
            return ExitCode::FAILURE;
        }
    }
    ExitCode::SUCCESS
}

fn write(folder: &Path, case: &Case) -> io::Result<()> {
    fs::write(folder.join(format!("{}.module", case.name)), &case.file)?;
    for (device, line) in [("box", case.on_box), ("plate", case.on_plate)] {
        let path = folder.join(format!("{}.{device}", case.name));
        fs::write(path, format!("{line}\n"))?;
    }
    Ok(())
}
