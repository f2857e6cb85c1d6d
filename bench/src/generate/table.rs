//! Random Dimensions, Axes and Cells, with the records that belong to them.

use super::field::*;
use super::value::{cell_value, value};
use super::GeneratedMember;
use crate::encode;
use crate::limits::{CATEGORY_DEPTH, TABLE_PLACES};
use crate::member::{Answer, DimensionAnswer};
use crate::random::Random;
use crate::version::Version;

/// A category without its name and leaf index.
enum Category {
    Leaf,
    Group(Vec<Category>),
}

impl Category {
    fn leaves(&self) -> u32 {
        match self {
            Category::Leaf => 1,
            Category::Group(categories) => leaves(categories),
        }
    }

    /// The nodes it contains, itself included.
    fn size(&self) -> u32 {
        match self {
            Category::Leaf => 1,
            Category::Group(categories) => 1 + categories.iter().map(Category::size).sum::<u32>(),
        }
    }
}

fn leaves(categories: &[Category]) -> u32 {
    categories.iter().map(Category::leaves).sum()
}

/// Appends Dimensions, Axes and Cells to the sections before them.
pub fn append_table(bytes: Vec<u8>, version: Version, random: &mut Random) -> GeneratedMember {
    let (nodes, cells) = (Vec::new(), Vec::new());
    let mut member = GeneratedMember { version, bytes, answer: Answer::default(), nodes, cells };
    let (dimensions, table_places) = shapes(random);
    member.bytes.extend(encode::int32(dimensions.len() as u32));
    for categories in &dimensions {
        append_dimension(&mut member, categories, random);
    }
    append_axes(&mut member, random);
    append_cells(&mut member, table_places, random);
    member
}

/// The categories of each dimension and the number of places in the table.
fn shapes(random: &mut Random) -> (Vec<Vec<Category>>, u64) {
    loop {
        let number = if random.once_in(12) { 16 } else { random.size(4) };
        let dimensions: Vec<Vec<Category>> = (0..number).map(|_| categories(random)).collect();
        if let Some(table_places) = table_places(&dimensions) {
            return (dimensions, table_places);
        }
    }
}

fn table_places(dimensions: &[Vec<Category>]) -> Option<u64> {
    let leaves: Vec<u32> = dimensions.iter().map(|categories| leaves(categories)).collect();
    if leaves.contains(&0) {
        return Some(0);
    }
    let product = leaves.iter().fold(1f64, |product, &n| product * f64::from(n));
    if product > TABLE_PLACES as f64 {
        return None;
    }
    Some(leaves.iter().map(|&n| u64::from(n)).product())
}

fn categories(random: &mut Random) -> Vec<Category> {
    if random.once_in(10) {
        return vec![nested_category(random)];
    }
    (0..random.size(4)).map(|_| category(random, 3)).collect()
}

/// A category with at most this many levels.
fn category(random: &mut Random, levels: usize) -> Category {
    if levels == 1 || !random.once_in(4) {
        return Category::Leaf;
    }
    Category::Group((0..random.size(3)).map(|_| category(random, levels - 1)).collect())
}

/// Groups one inside the other, up to the limit.
fn nested_category(random: &mut Random) -> Category {
    let mut nested = random_ending(random);
    for _ in 0..random.size(CATEGORY_DEPTH as usize - 1) {
        let mut categories = vec![nested];
        if random.once_in(3) {
            categories.push(Category::Leaf);
        }
        random.shuffle(&mut categories);
        nested = Category::Group(categories);
    }
    nested
}

fn random_ending(random: &mut Random) -> Category {
    if random.once_in(3) {
        Category::Group(Vec::new())
    } else {
        Category::Leaf
    }
}

fn append_dimension(member: &mut GeneratedMember, categories: &[Category], random: &mut Random) {
    let dimension = member.answer.dimension_count;
    let name = value(random, member.version);
    let (name_place, name_length) = append_value(member, &name);
    append_dimension_properties(member, random);
    let first_node = member.answer.node_count;
    let mut leaf_indexes: Vec<u32> = (0..leaves(categories)).collect();
    random.shuffle(&mut leaf_indexes);
    member.answer.dimensions[dimension as usize] =
        DimensionAnswer { name_place, name_length, leaves: leaf_indexes.len() as u32, first_node };
    append_categories(member, categories, u32::MAX, &mut leaf_indexes, random);
    member.answer.dimension_count += 1;
}

/// The place and the length of the Value.
fn append_value(member: &mut GeneratedMember, value: &[u8]) -> (u32, u32) {
    let place = member.bytes.len() as u32;
    member.bytes.extend(value);
    (place, value.len() as u32)
}

fn append_dimension_properties(member: &mut GeneratedMember, random: &mut Random) {
    member.bytes.extend(random.bytes(2));
    member.bytes.extend(int32(random));
    member.bytes.extend(bools(random, 2));
    member.bytes.push(0x01);
    member.bytes.extend(int32(random));
}

fn append_categories(
    member: &mut GeneratedMember,
    categories: &[Category],
    parent: u32,
    leaf_indexes: &mut Vec<u32>,
    random: &mut Random,
) {
    member.bytes.extend(encode::int32(categories.len() as u32));
    for category in categories {
        append_category(member, category, parent, leaf_indexes, random);
    }
}

fn append_category(
    member: &mut GeneratedMember,
    category: &Category,
    parent: u32,
    leaf_indexes: &mut Vec<u32>,
    random: &mut Random,
) {
    let name = value(random, member.version);
    let (place, length) = append_value(member, &name);
    let number = member.answer.node_count;
    let dimension = member.answer.dimension_count;
    member.answer.node_count += 1;
    match category {
        Category::Leaf => {
            let index = leaf_indexes.pop().expect("one index for each leaf");
            member.bytes.extend([0, 0, 0]);
            member.bytes.extend(encode::int32s(&[2, index, 0]));
            member.nodes.extend([0, dimension, parent, place, length, index, 1]);
        }
        Category::Group(categories) => {
            member.bytes.extend([random.bool(), 0, 1]);
            member.bytes.extend(int32(random));
            member.bytes.extend([0xff; 4]);
            let children = categories.len() as u32;
            let record = [1, dimension, parent, place, length, children, category.size()];
            member.nodes.extend(record);
            append_categories(member, categories, number, leaf_indexes, random);
        }
    }
}

fn append_axes(member: &mut GeneratedMember, random: &mut Random) {
    let dimensions = member.answer.dimension_count as usize;
    let layers = random.size(dimensions);
    let rows = random.size(dimensions - layers);
    let columns = dimensions - layers - rows;
    member.answer.axis_counts = [layers as u32, rows as u32, columns as u32];
    let order = &mut member.answer.axis_order[..dimensions];
    for (entry, dimension) in order.iter_mut().zip(0..) {
        *entry = dimension;
    }
    random.shuffle(order);
    member.bytes.extend(encode::int32s(&member.answer.axis_counts));
    member.bytes.extend(encode::int32s(order));
}

fn append_cells(member: &mut GeneratedMember, table_places: u64, random: &mut Random) {
    let indexes = cell_indexes(random, table_places);
    member.bytes.extend(encode::int32(indexes.len() as u32));
    for &index in &indexes {
        member.bytes.extend(encode::int64(index));
        let value = cell_value(random, member.version);
        let (place, length) = append_value(member, &value);
        member.cells.extend([index as u32, place, length]);
    }
    member.answer.cell_count = indexes.len() as u32;
}

/// Some indexes below the number of places, each once.
fn cell_indexes(random: &mut Random, table_places: u64) -> Vec<u64> {
    let mut indexes = Vec::new();
    if table_places == 0 {
        return indexes;
    }
    for _ in 0..random.size(8) {
        let index = random.below(table_places);
        if !indexes.contains(&index) {
            indexes.push(index);
        }
    }
    indexes
}
