//! Reads the lines of a script that is known to be good.
use crate::device::Device;
use crate::fabric::Fabric;
use std::collections::HashMap;

/// The places of nodes by their names.
pub type Names<'s> = HashMap<&'s str, usize>;

pub fn number<N: std::str::FromStr>(word: &str) -> N {
    word.parse().unwrap_or_else(|_| refused())
}

pub fn refused() -> ! {
    eprintln!("the script is not good");
    std::process::exit(3)
}

pub fn node(names: &Names, word: &str) -> usize {
    *names.get(word).unwrap_or_else(|| refused())
}

/// The place of a port.
pub fn port(fabric: &Fabric, names: &Names, word: &str) -> usize {
    let (name, place) = word.split_once('.').unwrap_or_else(|| refused());
    fabric.nodes[node(names, name)].first + number::<usize>(place)
}

/// Carries out a line of set-up, and says whether it is one.
pub fn set_up<'s>(fabric: &mut Fabric, names: &mut Names<'s>, words: &[&'s str]) -> bool {
    match *words {
        ["endpoint", name, id] => {
            names.insert(name, fabric.nodes.len());
            fabric.add_node(name, Device::new(0, number(id)));
        }
        ["switch", name, ports] => {
            names.insert(name, fabric.nodes.len());
            fabric.add_node(name, Device::new(number(ports), 0));
        }
        ["link", a, b] => {
            let ends = [port(fabric, names, a), port(fabric, names, b)];
            fabric.add_link(ends);
        }
        ["buffers", at, n] => {
            let at = port(fabric, names, at);
            fabric.ports[at].buffers = number(n);
        }
        ["credits", at] => {
            let at = port(fabric, names, at);
            fabric.ports[at].tells = true;
        }
        [word, at, id] => return set_device(&mut fabric.nodes, node_of(names, at), word, id),
        ["route", at, id, to] => {
            let device = &mut fabric.nodes[node(names, at)].device;
            device.routes[number::<usize>(id)] = number(to);
        }
        _ => return false,
    }
    true
}

fn node_of(names: &Names, word: &str) -> Option<usize> {
    names.get(word).copied()
}

fn set_device(
    nodes: &mut [crate::fabric::Node],
    at: Option<usize>,
    word: &str,
    value: &str,
) -> bool {
    let Some(at) = at else {
        return false;
    };
    let device = &mut nodes[at].device;
    match word {
        "default" => device.default_port = number(value),
        "lock" => device.lock = number(value),
        "large" => device.large_id = number(value),
        _ => return false,
    }
    true
}

/// Each line that is not skipped, with its number and its words.
pub fn lines(text: &str) -> impl Iterator<Item = (usize, &str, Vec<&str>)> {
    let numbered = text.lines().enumerate();
    let kept = numbered.filter(|(_, line)| !line.is_empty() && !line.starts_with('#'));
    kept.map(|(at, line)| (at + 1, line, line.split(' ').collect()))
}
