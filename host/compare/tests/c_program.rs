//! The headers as a C compiler sees them: the programs of host/c, compiled, linked with an archive each and run.

use std::path::Path;
use std::process::Command;

#[test]
fn the_codec_s_header_and_archive_serve_a_c_program() {
    compile_and_run("svsc_check", engine::svsc::ARCHIVE);
}

#[test]
fn the_frames_header_and_archive_serve_a_c_program() {
    compile_and_run("svsc_frames_check", engine::frames::ARCHIVE);
}

#[test]
fn the_relay_s_header_and_archive_serve_a_c_program() {
    compile_and_run("crondelith_check", engine::relay::ARCHIVE);
}

#[test]
fn the_explanations_header_and_archive_serve_a_c_program() {
    compile_and_run("crondelith_reasons_check", engine::reasons::ARCHIVE);
}

fn compile_and_run(name: &str, archive: &str) {
    let host = Path::new(env!("CARGO_MANIFEST_DIR")).join("..");
    let program = Path::new(env!("CARGO_TARGET_TMPDIR")).join(name);
    let compiler = std::env::var("CC").unwrap_or("cc".into());
    run(Command::new(compiler)
        .args(["-std=c11", "-Wall", "-Wextra", "-Werror", "-pedantic", "-I"])
        .arg(host.join("../include"))
        .arg("-o")
        .arg(&program)
        .arg(host.join("c").join(name).with_extension("c"))
        .arg(archive));
    run(&mut Command::new(program));
}

/// Runs the command to its end, which must be a success.
fn run(command: &mut Command) {
    let name = command.get_program().to_owned();
    let output =
        command.output().unwrap_or_else(|error| panic!("{name:?} doesn't run ({error}): a C compiler is needed"));
    let text = String::from_utf8_lossy(&[output.stdout, output.stderr].concat()).into_owned();
    println!("{text}");
    assert!(output.status.success(), "{name:?}: {}", output.status);
}
