//! Stand-in for the XML module: the names that skeleton.rs imports, with nothing behind them.
//! No function that the comparison calls reaches one of these.

use crate::math::{Vec3, Vec4};

#[derive(Clone, Copy)]
pub struct Node;

impl Node {
    pub fn text(&self) -> Option<&'static str> {
        None
    }
}

pub struct XmlOut;

impl XmlOut {
    pub fn string(&mut self, _name: &str, _value: &str) {}
    pub fn value<T>(&mut self, _name: &str, _value: T) {}
    pub fn vec3(&mut self, _name: &str, _value: Vec3) {}
    pub fn vec4(&mut self, _name: &str, _value: Vec4) {}
}

pub fn child(_node: Node, _name: &str) -> Option<Node> {
    None
}

pub fn child_attr_i32(_node: Node, _name: &str, _attribute: &str) -> i32 {
    0
}

pub fn child_attr_u32(_node: Node, _name: &str, _attribute: &str) -> u32 {
    0
}

pub fn child_text(_node: Node, _name: &str) -> String {
    String::new()
}

pub fn child_vec3(_node: Node, _name: &str) -> Vec3 {
    Vec3::ZERO
}

pub fn child_vec4(_node: Node, _name: &str) -> Vec4 {
    Vec4::default()
}

pub fn format_flags<T: Copy>(_flags: T, _names: &[(&str, T)], _has: impl Fn(T, T) -> bool, _zero: T, _none: &str) -> String {
    String::new()
}

pub fn parse_flags<T>(_text: &str, _names: &[(&str, T)], _or: impl Fn(T, T) -> T, zero: T) -> T {
    zero
}

pub fn items(_node: Node, _name: &str) -> Vec<Node> {
    Vec::new()
}

pub fn write_items<T>(_out: &mut XmlOut, _name: &str, _items: &[T], _write: impl Fn(&mut XmlOut, &T)) {}
