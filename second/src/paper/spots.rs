//! Places of a document as ways into its tree.

use super::tree::{Element, Item};

/// What stands at a place of a document. A path is the way from the root: each number counts items of one content.
#[derive(Clone, Debug, PartialEq)]
pub enum Spot {
    /// The start of an element, or a text.
    Item(Vec<usize>),
    /// The end of an element.
    End(Vec<usize>),
    /// An attribute or a value, or no token at all.
    Other,
}

/// Finds what stands at a place.
pub fn spot(root: &Element, place: u64) -> Spot {
    let mut path = Vec::new();
    let mut element = root;
    let mut left = match usize::try_from(place) {
        Ok(place) if place < root.size() => place,
        _ => return Spot::Other,
    };
    // `left` counts the tokens from the start of `element`, at `path`, to the place, which lies in it.
    'down: loop {
        if left == 0 {
            return Spot::Item(path);
        }
        if left < element.head_size() {
            return Spot::Other;
        }
        left -= element.head_size();
        for (i, item) in element.content.iter().enumerate() {
            let size = item.size();
            if left >= size {
                left -= size;
                continue;
            }
            path.push(i);
            match item {
                Item::Text(_) => return Spot::Item(path),
                Item::Element(child) => {
                    element = child;
                    continue 'down;
                }
            }
        }
        return Spot::End(path);
    }
}

/// The element at a path, if the path does not lead to a text.
pub fn element_at<'a>(root: &'a mut Element, path: &[usize]) -> Option<&'a mut Element> {
    let mut element = root;
    for i in path {
        element = match &mut element.content[*i] {
            Item::Element(child) => child,
            Item::Text(_) => return None,
        };
    }
    Some(element)
}

/// The content that holds the item at a path, its element being touched, and the item's number there. The root has none.
pub fn holder<'a>(root: &'a mut Element, path: &[usize]) -> Option<(&'a mut Vec<Item>, usize)> {
    let (i, above) = path.split_last()?;
    let parent = element_at(root, above).expect("an item is held by an element");
    parent.touched = true;
    Some((&mut parent.content, *i))
}
