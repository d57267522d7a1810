//! Replacements in a copy of the source, from a file of `file:`, `old:` and `new:` lines.
use std::{fs, path::Path};

/// Does every replacement of the file `mends` below the folder `root`. Each old text stands exactly once.
pub fn apply(root: &str, mends: &str) -> Result<(), String> {
    let text = fs::read_to_string(mends).map_err(|err| format!("{mends}: {err}"))?;
    let lines: Vec<&str> = text
        .lines()
        .filter(|line| !line.is_empty() && !line.starts_with('#'))
        .collect();
    for three in lines.chunks(3) {
        let [file, old, new] = three else {
            return Err(format!("{mends}: `file:`, `old:` and `new:` come together"));
        };
        let file = field(mends, "file: ", file)?;
        let (old, new) = (field(mends, "old: ", old)?, field(mends, "new: ", new)?);
        replace(&Path::new(root).join(file), old, new).map_err(|err| format!("{mends}: {file}: {err}"))?;
    }
    Ok(())
}

fn field<'a>(mends: &str, name: &str, line: &'a str) -> Result<&'a str, String> {
    line.strip_prefix(name)
        .ok_or_else(|| format!("{mends}: no `{name}` where it belongs: {line}"))
}

fn replace(path: &Path, old: &str, new: &str) -> Result<(), String> {
    let source = fs::read_to_string(path).map_err(|err| err.to_string())?;
    match source.matches(old).count() {
        1 => fs::write(path, source.replace(old, new)).map_err(|err| err.to_string()),
        n => Err(format!("the old text stands {n} times, not once: {old}")),
    }
}
