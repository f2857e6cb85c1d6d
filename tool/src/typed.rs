//! Dimensions and leaves by what people type for them.

use std::collections::{BTreeMap, HashMap};

use crate::commands::Member;
use crate::names::DimensionNames;
use crate::refusal::no_dimension;

/// The dimension with this name, or else with this number.
pub fn dimension_named(member: &Member, asked: &str) -> Result<usize, String> {
    let named: Vec<usize> =
        (0..member.names.len()).filter(|&i| same_name(&member.names[i].name, asked)).collect();
    match (&named[..], asked.parse()) {
        ([dimension], _) => Ok(*dimension),
        ([], Ok(number)) if number < member.names.len() => Ok(number),
        ([], _) => Err(no_dimension(asked)),
        (_, _) => Err(format!("several dimensions are named {asked}; give its number")),
    }
}

/// Whether a name is the one that was typed; spaces around it don't count.
fn same_name(name: &str, typed: &str) -> bool {
    name.trim() == typed.trim()
}

/// The dimensions and leaves of a member, as they may be typed.
pub struct Places<'m, 'a> {
    member: &'m Member<'a>,
    /// The leaves of the dimensions that were asked for.
    leaves: BTreeMap<usize, LeafNames>,
}

impl<'m, 'a> Places<'m, 'a> {
    pub fn new(member: &'m Member<'a>) -> Places<'m, 'a> {
        Places { member, leaves: BTreeMap::new() }
    }

    /// The numbers of a dimension and of a leaf of it; none if the member has them not.
    pub fn of(&mut self, dimension: &str, leaf: &str) -> Result<Option<(usize, usize)>, String> {
        let names = &self.member.names;
        let named = names.iter().any(|names| same_name(&names.name, dimension));
        let numbered = dimension.parse().is_ok_and(|number: usize| number < names.len());
        if !named && !numbered {
            return Ok(None);
        }
        let dimension = dimension_named(self.member, dimension)?;
        let leaves =
            self.leaves.entry(dimension).or_insert_with(|| LeafNames::new(&names[dimension]));
        Ok(leaves.leaf(leaf)?.map(|leaf| (dimension, leaf)))
    }

    /// The dimensions that were asked for, whether their leaves were there or not.
    pub fn dimensions(&self) -> impl Iterator<Item = usize> + '_ {
        self.leaves.keys().copied()
    }
}

/// The leaves of a dimension by their paths and by their own names, without spaces around.
struct LeafNames {
    count: usize,
    by_path: HashMap<String, Vec<usize>>,
    by_name: HashMap<String, Vec<usize>>,
}

impl LeafNames {
    fn new(names: &DimensionNames) -> LeafNames {
        let mut leaves = LeafNames {
            count: names.leaves.len(),
            by_path: HashMap::new(),
            by_name: HashMap::new(),
        };
        for (leaf, path) in names.leaves.iter().enumerate() {
            leaves.by_path.entry(names.path(leaf).trim().into()).or_default().push(leaf);
            let name = path.last().map_or("", |name| name.trim());
            leaves.by_name.entry(name.into()).or_default().push(leaf);
        }
        leaves
    }

    /// The leaf with this path, or else with this name, or else `#` and its leaf index.
    fn leaf(&self, asked: &str) -> Result<Option<usize>, String> {
        let named = self.by_path.get(asked).or(self.by_name.get(asked));
        match named.map(Vec::as_slice) {
            Some([leaf]) => Ok(Some(*leaf)),
            Some(_) => Err(format!(
                "several leaves are named {asked}; give the path, or # and the leaf index"
            )),
            None => {
                let index = asked.strip_prefix('#').and_then(|index| index.parse().ok());
                Ok(index.filter(|&index: &usize| index < self.count))
            }
        }
    }
}
