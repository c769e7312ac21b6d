//! What a view line of the program says about messages and about who waits.
use std::collections::HashSet;

/// The kept messages, and the listeners: a place, or a key with `s` or `f` after it.
#[derive(Debug)]
pub(crate) struct View {
    pub(crate) queue: HashSet<u64>,
    pub(crate) told: HashSet<String>,
    pub(crate) untold: HashSet<String>,
}

impl View {
    /// Reads a line; `None` if it isn't a view.
    pub(crate) fn parse(line: &str) -> Option<View> {
        let part = |name| line.split(' ').find_map(|word| word.strip_prefix(name));
        let queue = items(part("queue=")?)?.map(|item| item.parse().ok());
        let mut view = View {
            queue: queue.collect::<Option<_>>()?,
            told: HashSet::new(),
            untold: HashSet::new(),
        };
        for name in ["WS=", "WR="] {
            let (list, told) = part(name)?.split_once('/')?;
            let told = told.parse().ok()?;
            for (position, item) in items(list)?.enumerate() {
                let listeners = if position < told {
                    &mut view.told
                } else {
                    &mut view.untold
                };
                listeners.insert(item.to_owned());
            }
        }
        Some(view)
    }
}

/// The items of a list in square brackets.
fn items(list: &str) -> Option<impl Iterator<Item = &str>> {
    let inner = list.strip_prefix('[')?.strip_suffix(']')?;
    Some(inner.split(',').filter(|item| !item.is_empty()))
}
