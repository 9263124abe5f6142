//! The caches of the machine, as Linux tells them.

use std::fs;
use std::path::Path;

/// A cache past the first level.
#[derive(Clone, Copy, Debug, PartialEq, Eq)]
pub struct Cache {
    pub level: usize,
    pub bytes: usize,
}

/// Those of the first processor, the smallest first; none where it is not told.
pub fn all() -> Vec<Cache> {
    let Ok(folders) = fs::read_dir("/sys/devices/system/cpu/cpu0/cache") else {
        return vec![];
    };
    let folders = folders.filter_map(Result::ok);
    let mut caches: Vec<Cache> = folders.filter_map(|folder| cache(&folder.path())).collect();
    caches.retain(|cache| cache.level > 1);
    caches.sort_by_key(|cache| cache.level);
    caches
}

fn cache(folder: &Path) -> Option<Cache> {
    let read = |name: &str| fs::read_to_string(folder.join(name)).ok();
    let (level, size) = (read("level")?, read("size")?);
    Some(Cache {
        level: level.trim().parse().ok()?,
        bytes: 1_024 * size.trim().strip_suffix('K')?.parse::<usize>().ok()?,
    })
}
