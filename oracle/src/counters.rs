//! The real rustsat: its node database and `define_unweighted_cert`, called as document 01 says.

use std::{cell::RefCell, io, rc::Rc};

use pigeons::{AbsConstraintId, Proof};
use rustsat::{
    encodings::{
        cert,
        pb::{connection, Db, Node, NodeById, NodeCon, NodeId, NodeLike, Semantics},
        CollectClauses,
    },
    instances::BasicVarManager,
    lit,
    types::{Clause, Lit, Var},
    OutOfMemory,
};

use crate::format::{write_number, Side};

/// The log that the proof writer and the clause collector share.
#[derive(Clone, Default)]
struct Log(Rc<RefCell<Vec<u8>>>);

impl io::Write for Log {
    fn write(&mut self, bytes: &[u8]) -> io::Result<usize> {
        self.0.borrow_mut().extend(bytes);
        Ok(bytes.len())
    }

    fn flush(&mut self) -> io::Result<()> {
        Ok(())
    }
}

fn number(literal: Lit) -> u32 {
    2 * literal.vidx32() + u32::from(literal.is_neg())
}

/// Records clauses as kind 3: step, count, literals.
struct Collector {
    log: Log,
    clauses: usize,
}

impl CollectClauses for Collector {
    fn n_clauses(&self) -> usize {
        self.clauses
    }

    fn extend_clauses<T: IntoIterator<Item = Clause>>(&mut self, _: T) -> Result<(), OutOfMemory> {
        panic!("a clause without a step")
    }
}

impl cert::CollectClauses for Collector {
    fn extend_cert_clauses<T>(&mut self, clauses: T) -> Result<(), OutOfMemory>
    where
        T: IntoIterator<Item = (Clause, AbsConstraintId)>,
    {
        for (clause, step) in clauses {
            let literals = clause.iter().map(|l| u64::from(number(*l)));
            for n in [3, step.0, clause.len() as u64].into_iter().chain(literals) {
                write_number(&mut self.log, n).expect("the log takes every byte");
            }
            self.clauses += 1;
        }
        Ok(())
    }
}

/// All counters of one script.
pub struct Counters {
    db: Db,
    variables: BasicVarManager,
    proof: Proof<Log>,
    collector: Collector,
    first_step: u32,
}

impl Counters {
    pub fn new(first_variable: u32, first_step: u32) -> Self {
        let log = Log::default();
        Counters {
            db: Db::default(),
            variables: BasicVarManager::from_next_free(Var::new(first_variable)),
            proof: Proof::new(log.clone(), u64::from(first_step)),
            collector: Collector { log, clauses: 0 },
            first_step,
        }
    }

    /// The leaf of a literal: its old node where the literal was seen before.
    pub fn leaf(&mut self, literal: u32) {
        self.db.insert(Node::leaf(Lit::new(literal / 2, literal % 2 == 1)));
    }

    pub fn join(&mut self, left: Side, right: Side) {
        let [left, right] =
            [left, right].map(|s| connection(NodeId(s.node as usize), s.offset as usize, s.limit as usize));
        let node = Node::internal(left, right, &self.db);
        let id = self.db.insert(node);
        self.db.reserve_vars(NodeCon::full(id), &mut self.variables);
    }

    pub fn request(&mut self, node: u32, value: u32, direction: u32) {
        let id = NodeId(node as usize);
        let semantics = match direction {
            1 => Semantics::If,
            2 => Semantics::OnlyIf,
            _ => Semantics::IfAndOnlyIf,
        };
        let mut leaves = vec![lit![0]; self.db[id].n_leaves()];
        self.db
            .define_unweighted_cert(
                id,
                (value as usize).wrapping_sub(1),
                semantics,
                &mut self.collector,
                &mut self.variables,
                &mut self.proof,
                (&mut leaves, false, true),
            )
            .expect("writing to memory does not fail");
    }

    pub fn close(&mut self) {
        self.db.delete_semantics(&mut self.proof).expect("writing to memory does not fail");
    }

    pub fn length_of(&self, node: u32) -> u32 {
        self.db[NodeId(node as usize)].len() as u32
    }

    pub fn nodes(&self) -> u32 {
        self.db.len() as u32
    }

    pub fn steps(&self) -> u32 {
        self.proof.next_step() as u32 - self.first_step
    }

    pub fn clauses(&self) -> u32 {
        self.collector.clauses as u32
    }

    pub fn log_length(&self) -> usize {
        self.collector.log.0.borrow().len()
    }

    pub fn log(&self) -> Vec<u8> {
        self.collector.log.0.borrow().clone()
    }
}
