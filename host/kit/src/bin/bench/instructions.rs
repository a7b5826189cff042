//! Instructions of whole processes, as valgrind counts them: caches and other programs have no part in them.

use std::io::Result;
use std::path::Path;
use std::process::Command;

/// Those that the command takes to pack a bundle. None where valgrind is not at hand.
pub fn of_packing(barthovin: &Path, bundle: &[u8]) -> Result<Option<u64>> {
    let file = std::env::temp_dir().join(format!("barthovin-bench.{}.bundle", std::process::id()));
    std::fs::write(&file, bundle)?;
    let mut command = Command::new("valgrind");
    command.args(["--tool=callgrind", "--callgrind-out-file=/dev/null"]).arg(barthovin);
    let ran = command.arg("pack").arg(&file).args(["-o", "/dev/null"]).output();
    std::fs::remove_file(&file)?;
    let counted = ran.ok().filter(|ran| ran.status.success()).and_then(|ran| {
        let told = String::from_utf8_lossy(&ran.stderr).into_owned();
        told.lines().find_map(|line| line.split_once("Collected : ")?.1.trim().parse().ok())
    });
    Ok(counted)
}
