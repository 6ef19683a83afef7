//! Whether a program is on the PATH. Under an emulator a start that failed looks like one that was made, so it is not asked by starting it.

pub fn installed(program: &str) -> bool {
    std::env::var_os("PATH").is_some_and(|path| std::env::split_paths(&path).any(|folder| folder.join(program).is_file()))
}
