//! Solves one instance, whose numbers are read from the standard input, and says what came of it.
//! Arguments: `good` or `solve`, the budget, the gap, and the file for the certificate, or `-`.
#![allow(warnings)]

pub mod kit;
include!("crates.rs");

use branch_tree::Name;
use certificate::{Cert, Node};
use kit::Runtime;
use kit::atomic_table::READS;
use kit::std::alloc::Global;
use kit::std::string::String as KitString;
use kit::std::vec::Vec as KitVec;
use planner::{FoundPlan, Gate, Options, Outcome, Site};
use std::io::Read;
use std::sync::Mutex;
use std::sync::atomic::Ordering;
use std::time::Instant;
use ttp_model::{
    Cluster, Instance, Link, Message, Name as ModelName, Node as ModelNode, Numbers, Plan, Process,
};

/// Follows the worker, and notes when it began and when it was last done with a subtree.
struct Phases(Mutex<Moments>);

#[derive(Clone, Copy)]
struct Moments {
    began: Instant,
    left: Instant,
}

impl Gate for Phases {
    fn start(&self, _worker: usize) {
        let now = Instant::now();
        *self.0.lock().unwrap() = Moments {
            began: now,
            left: now,
        };
    }

    fn enter(&self, _worker: usize, _name: &Name) {}

    fn leave(&self, _worker: usize, _name: &Name) {
        self.0.lock().unwrap().left = Instant::now();
    }

    fn found(&self, _instance: &Instance, _found: &FoundPlan) {}
}

/// The numbers of an instance, one after the other.
struct Source(std::vec::IntoIter<u32>);

impl Source {
    fn number(&mut self) -> u32 {
        self.0.next().expect("the numbers end too early")
    }

    fn list<T>(&mut self, mut one: impl FnMut(&mut Source, usize) -> T) -> KitVec<T> {
        let count = self.number() as usize;
        KitVec((0..count).map(|k| one(self, k)).collect())
    }

    fn numbers(&mut self) -> Numbers {
        Numbers::new(self.list(|source, _| source.number()))
    }

    // A clone whose clusters have no channels has one, and no message is on both: the numbers are read all the same.
    fn cluster(&mut self) -> Cluster {
        let _channels = self.number();
        Cluster {
            precision: self.number(),
            lead: self.number(),
            trail: self.number(),
            head: self.number(),
            per_byte: self.number(),
            copy_out: self.number(),
            copy_in: self.number(),
            horizon: self.number(),
            #[cfg(clusters_have_channels)]
            channels: _channels,
        }
    }

    fn node(&mut self, k: usize) -> ModelNode {
        ModelNode {
            name: name_of('n', k),
            capacities: self.numbers(),
        }
    }

    fn process(&mut self, k: usize) -> Process {
        Process {
            name: name_of('p', k),
            node: self.number(),
            wcet: self.number(),
            release: self.number(),
            deadline: self.number(),
        }
    }

    fn link(&mut self, _: usize) -> Link {
        Link {
            before: self.number(),
            after: self.number(),
        }
    }

    fn message(&mut self, k: usize) -> Message {
        let _both = self.number() == 1;
        Message {
            name: name_of('m', k),
            sender: self.number(),
            bytes: self.number(),
            receivers: self.numbers(),
            #[cfg(clusters_have_channels)]
            both: _both,
        }
    }

    fn instance(&mut self) -> Instance {
        let cluster = self.cluster();
        let nodes = self.list(Source::node);
        let processes = self.list(Source::process);
        let links = self.list(Source::link);
        let messages = self.list(Source::message);
        Instance::build(Global, cluster, nodes, processes, links, messages)
            .expect("no lawful instance")
    }
}

fn name_of(kind: char, k: usize) -> ModelName {
    ModelName::new(KitString::from_str(Global, &format!("{kind}{k}")).unwrap())
}

fn read_instance() -> Instance {
    let mut text = std::string::String::new();
    std::io::stdin().read_to_string(&mut text).unwrap();
    let numbers: Vec<u32> = text
        .split_whitespace()
        .map(|word| word.parse().unwrap())
        .collect();
    Source(numbers.into_iter()).instance()
}

fn seconds(from: Instant, to: Instant) -> f64 {
    to.saturating_duration_since(from).as_secs_f64()
}

#[cfg(good_plan_takes_enough)]
fn good(instance: &Instance) -> Option<(Plan, u64)> {
    good_plan::good_plan(&Runtime, Global, instance, 1, 0).unwrap()
}

#[cfg(all(good_plan_takes_workers, not(good_plan_takes_enough)))]
fn good(instance: &Instance) -> Option<(Plan, u64)> {
    good_plan::good_plan(&Runtime, Global, instance, 1).unwrap()
}

#[cfg(not(good_plan_takes_workers))]
fn good(instance: &Instance) -> Option<(Plan, u64)> {
    good_plan::good_plan(Global, instance).unwrap()
}

fn tell_good(instance: &Instance) {
    let from = Instant::now();
    let found = good(instance);
    let took = seconds(from, Instant::now());
    println!(
        "delay={} good={took:.3}",
        found.map_or("none".to_string(), |(_, delay)| delay.to_string())
    );
}

fn said(outcome: &Outcome) -> (std::string::String, &Cert) {
    match outcome {
        Outcome::Optimal { delay, cert, .. } => (delay.to_string(), cert),
        Outcome::Infeasible { cert } => ("infeasible".to_string(), cert),
        Outcome::Stopped {
            low, best, cert, ..
        } => {
            let best = best
                .as_ref()
                .map_or("none".to_string(), |best| best.delay.to_string());
            (format!("{low}..{best}"), cert)
        }
    }
}

fn steps_of(cert: &Cert) -> usize {
    let steps = |node: &Node| match node {
        Node::Leaf(leaf) => leaf.steps.as_slice().len(),
        Node::Branch(_) => 0,
    };
    cert.nodes().iter().map(steps).sum()
}

fn tell_solved(instance: &Instance, budget: u64, gap: u32, file: &str) {
    let from = Instant::now();
    let gate = Phases(Mutex::new(Moments {
        began: from,
        left: from,
    }));
    let site = Site {
        alloc: Global,
        instance,
        gate: &gate,
    };
    let options = Options { workers: 1, budget };
    let outcome = planner::solve_towards(&Runtime, &site, options, gap, None).unwrap();
    let solved = Instant::now();
    let (delay, cert) = said(&outcome);
    let text = certificate::print(Global, cert).unwrap();
    let written = Instant::now();
    let (nodes, steps, bytes) = (cert.nodes().len(), steps_of(cert), text.len());
    let worked = READS.load(Ordering::Relaxed);
    let Moments { began, left } = *gate.0.lock().unwrap();
    let (good, search, lean) = (
        seconds(from, began),
        seconds(began, left),
        seconds(left, solved),
    );
    let writing = seconds(solved, written);
    let all = seconds(from, written);
    println!(
        "delay={delay} worked={worked} nodes={nodes} steps={steps} bytes={bytes} seconds={all:.2} good={good:.2} search={search:.2} lean={lean:.2} write={writing:.2}"
    );
    if file != "-" {
        std::fs::write(file, text.as_slice()).expect("the certificate was not written");
    }
}

fn main() {
    let words: Vec<std::string::String> = std::env::args().collect();
    let instance = read_instance();
    match words[1].as_str() {
        "good" => tell_good(&instance),
        _ => tell_solved(&instance, words[2].parse().unwrap(), words[3].parse().unwrap(), &words[4]),
    }
}
