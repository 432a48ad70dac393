//! Random programs: every tag and op, names that are mostly known, and now and then a rule broken on purpose.
use super::build::*;
use super::scope::Scope;
use super::values;
use crate::rng::Rng;

/// What kind of program to grow.
#[derive(Clone, Copy)]
pub struct Taste {
    /// About how many nodes.
    pub size: usize,
    /// No node is deeper than this (but for the least that a node needs below it).
    pub deepest: usize,
    /// The refusal to provoke, now and then, where it could be: 9 to 12 or 16; 0 for none.
    pub mischief: u8,
    /// In 1,000: how often a body begins with a row of literals that take most of its registers.
    pub stuffing: usize,
    /// More loops and continues, and increments of the kinds that mode 1 tells apart.
    pub loops: bool,
    /// Whether there are classes, which mode 1 refuses.
    pub classes: bool,
}

impl Taste {
    /// Small programs, most of them without mischief.
    pub fn any(rng: &mut Rng, size: usize) -> Taste {
        let mischief = if rng.chance(160) { *rng.pick(&[9, 10, 11, 12]) } else { 0 };
        Taste {
            size: rng.range(1, size),
            deepest: rng.range(4, 30),
            mischief,
            stuffing: 0,
            loops: false,
            classes: true,
        }
    }

    /// As a mode likes it: in mode 1 loops, and classes in few programs.
    pub fn in_mode(self, rng: &mut Rng, mode_1: bool) -> Taste {
        Taste { loops: mode_1, classes: !mode_1 || rng.chance(30), ..self }
    }
}

pub fn program(rng: &mut Rng, taste: Taste) -> Node {
    let names = (0..rng.range(2, 12)).map(|_| values::name(rng)).collect();
    let mut grower = Grower { left: taste.size as isize, rng, taste, names, scope: Scope::new() };
    let mut statements = grower.stuffed();
    while grower.left > 0 {
        statements.push(grower.statement(2).node);
    }
    super::build::program(statements)
}

/// A node, and whether it gives an instruction.
struct Grown {
    node: Node,
    emits: bool,
}

fn emits(node: Node) -> Grown {
    Grown { node, emits: true }
}

struct Grower<'r> {
    rng: &'r mut Rng,
    taste: Taste,
    left: isize,
    names: Vec<u16>,
    scope: Scope,
}

impl Grower<'_> {
    fn mark(&mut self) -> u16 {
        values::mark(self.rng)
    }

    /// A name of this program's few, with a mark.
    fn pair(&mut self) -> Pair {
        (*self.rng.pick(&self.names), self.mark())
    }

    fn pairs(&mut self, most: usize) -> Vec<Pair> {
        let n = if self.rng.chance(self.taste.stuffing) { self.rng.range(180, 255) } else { self.rng.below(most + 1) };
        (0..n).map(|_| self.pair()).collect()
    }

    fn mischief(&mut self, number: u8) -> bool {
        self.taste.mischief == number && self.rng.chance(if number == 9 { 60 } else { 500 })
    }

    /// Whether a node at this depth may have grown children.
    fn may_grow(&self, depth: usize) -> bool {
        self.left > 0 && depth < self.taste.deepest
    }

    /// A row of literal statements, most often none.
    fn stuffed(&mut self) -> Vec<Node> {
        let n = if self.rng.chance(self.taste.stuffing) { self.rng.range(200, 256) } else { 0 };
        (0..n).map(|_| expression(bits(values::number_bits(self.rng)))).collect()
    }

    // ---- statements

    fn statement(&mut self, depth: usize) -> Grown {
        self.left -= 1;
        if !self.may_grow(depth + 1) {
            return self.small_statement(depth);
        }
        match self.kind() {
            0..=27 => self.expression_statement(depth),
            28..=42 => self.let_statement(depth),
            43..=48 => self.block_statement(depth),
            49..=54 => self.while_statement(depth),
            55..=59 => self.for_statement(depth),
            60..=65 => self.for_in_statement(depth),
            66..=72 => self.jump_statement(depth),
            73..=76 => self.return_statement(depth),
            77..=85 => self.if_statement(depth),
            86..=90 => self.try_statement(depth),
            91..=96 => self.function_statement(depth),
            _ => self.class_statement(depth),
        }
    }

    /// In hundredths; where loops are wanted, often one of while to for-in, or to try within one.
    fn kind(&mut self) -> usize {
        match self.taste.loops && self.rng.chance(500) {
            true if self.scope.in_loop() => self.rng.range(49, 90),
            true => self.rng.range(49, 65),
            false => self.rng.below(100),
        }
    }

    fn small_statement(&mut self, depth: usize) -> Grown {
        if self.taste.loops && self.scope.in_loop() && self.rng.chance(500) {
            return self.jump_statement(depth);
        }
        match self.rng.below(6) {
            0 => Grown { node: block(vec![]), emits: false },
            1 => emits(return_(self.mark(), None)),
            2 => self.jump_statement(depth),
            _ => self.expression_statement(depth),
        }
    }

    fn expression_statement(&mut self, depth: usize) -> Grown {
        let x = self.expr(depth + 1);
        Grown { node: expression(x.node), emits: x.emits }
    }

    fn let_statement(&mut self, depth: usize) -> Grown {
        let mut pair = self.pair();
        let global = self.scope.is_global();
        if global && self.scope.globals.contains(&pair.0) && !self.mischief(10) {
            pair.0 = self.fresh_name();
        }
        if global {
            self.scope.globals.push(pair.0);
        }
        let initializer = (!self.rng.chance(250)).then(|| self.expr(depth + 1));
        if !global {
            self.scope.declare(pair.0);
        }
        let given = initializer.as_ref().is_some_and(|x| x.emits);
        Grown { node: let_(pair, initializer.map(|x| x.node)), emits: global || given }
    }

    /// A name that is no global yet.
    fn fresh_name(&mut self) -> u16 {
        loop {
            let name = values::name(self.rng);
            if !self.scope.globals.contains(&name) {
                self.names.push(name);
                return name;
            }
        }
    }

    fn statements(&mut self, depth: usize, most: usize) -> (Vec<Node>, bool) {
        let (mut nodes, mut emits) = (vec![], false);
        for _ in 0..self.rng.below(most + 1) {
            if self.left > 0 {
                let s = self.statement(depth);
                emits |= s.emits;
                nodes.push(s.node);
            }
        }
        (nodes, emits)
    }

    fn block_statement(&mut self, depth: usize) -> Grown {
        self.scope.open_block();
        let (body, emits) = self.statements(depth + 1, 5);
        self.scope.close_block();
        Grown { node: block(body), emits }
    }

    /// The body of a loop: one statement, more often a block.
    fn loop_body(&mut self, depth: usize) -> Node {
        self.scope.open_loop();
        let body = if self.rng.chance(600) && self.may_grow(depth) {
            self.block_statement(depth)
        } else {
            self.statement(depth)
        };
        self.scope.close_loop();
        body.node
    }

    fn while_statement(&mut self, depth: usize) -> Grown {
        let condition = self.expr(depth + 1).node;
        let body = self.loop_body(depth + 1);
        emits(while_(self.mark(), condition, body))
    }

    fn for_statement(&mut self, depth: usize) -> Grown {
        let initializer = match self.rng.below(3) {
            0 => None,
            1 => Some(self.expression_statement(depth + 1).node),
            _ => Some(self.let_statement(depth + 1).node),
        };
        let condition = self.expr(depth + 1).node;
        let body = self.loop_body(depth + 1);
        let increment = if self.taste.loops { self.increment(depth + 1) } else { self.expr(depth + 1).node };
        emits(for_(self.mark(), initializer, condition, increment, body))
    }

    /// Often a local variable, which gives no instruction, or a numeral minus something, of which a pass is dropped.
    fn increment(&mut self, depth: usize) -> Node {
        let (mark, locals) = (self.mark(), self.scope.locals());
        match self.rng.below(4) {
            0 if !locals.is_empty() => variable((*self.rng.pick(&locals), mark)),
            1 => binary(8, mark, number(self.rng.below(256) as f64), self.expr(depth + 1).node),
            _ => self.expr(depth).node,
        }
    }

    fn for_in_statement(&mut self, depth: usize) -> Grown {
        let collection = self.expr(depth + 1).node;
        let mut pairs = if self.rng.chance(500) { vec![] } else { self.pairs(4) };
        pairs.push(self.pair());
        for (name, _) in &pairs {
            self.scope.declare(*name);
        }
        let body = self.loop_body(depth + 1);
        emits(for_in(self.mark(), collection, body, &pairs))
    }

    /// Break or continue where a loop is open; else what a small expression gives.
    fn jump_statement(&mut self, depth: usize) -> Grown {
        if self.scope.in_loop() || self.mischief(11) {
            let mark = self.mark();
            let breaks = if self.taste.loops { 200 } else { 500 };
            return emits(if self.rng.chance(breaks) { break_(mark) } else { continue_(mark) });
        }
        self.expression_statement(depth)
    }

    fn return_statement(&mut self, depth: usize) -> Grown {
        let value = self.rng.chance(700).then(|| self.expr(depth + 1).node);
        emits(return_(self.mark(), value))
    }

    fn if_statement(&mut self, depth: usize) -> Grown {
        let condition = self.expr(depth + 1).node;
        let then = self.statements(depth + 1, 3).0;
        let mut elifs = vec![];
        while elifs.len() < 4 && self.rng.chance(300) && self.may_grow(depth + 2) {
            let condition = self.expr(depth + 2).node;
            elifs.push(elif(condition, self.statements(depth + 2, 2).0));
        }
        let otherwise = if self.rng.chance(500) { self.statements(depth + 1, 3).0 } else { vec![] };
        emits(if_(self.mark(), condition, then, elifs, otherwise))
    }

    fn try_statement(&mut self, depth: usize) -> Grown {
        let body = self.statement(depth + 1).node;
        let pair = self.pair();
        self.scope.open_block();
        self.scope.declare(pair.0);
        let catch = self.statement(depth + 1).node;
        self.scope.close_block();
        emits(try_(body, pair, catch))
    }

    fn function_statement(&mut self, depth: usize) -> Grown {
        if !self.may_nest() {
            return self.expression_statement(depth);
        }
        emits(self.named_function(depth))
    }

    fn named_function(&mut self, depth: usize) -> Node {
        let pair = self.pair();
        let global = self.scope.is_global();
        if global {
            self.scope.globals.push(pair.0);
        }
        let params = self.pairs(4);
        let body = self.function_body(Some(pair.0), &params, depth);
        if !global {
            self.scope.declare(pair.0);
        }
        function_statement(pair, &params, body)
    }

    fn class_statement(&mut self, depth: usize) -> Grown {
        if !self.taste.classes || !self.may_nest() {
            return self.expression_statement(depth);
        }
        let pair = self.pair();
        let global = self.scope.is_global();
        if global {
            self.scope.globals.push(pair.0);
        }
        let superclass = self.rng.chance(500).then(|| self.variable().node);
        self.scope.open_block();
        let methods = (0..self.rng.below(3)).map(|_| self.named_function(depth + 1)).collect();
        let statics = (0..self.rng.below(3)).map(|_| self.named_function(depth + 1)).collect();
        self.scope.close_block();
        if !global {
            self.scope.declare(pair.0);
        }
        emits(class(pair, superclass, methods, statics))
    }

    // ---- functions

    /// Seven functions within main are open at most, but for mischief.
    fn may_nest(&mut self) -> bool {
        self.scope.open_functions() < 8 || self.mischief(16)
    }

    fn function_body(&mut self, name: Option<u16>, params: &[Pair], depth: usize) -> Vec<Node> {
        self.left -= 1;
        self.scope.open_function(name, params.iter().map(|p| p.0));
        let mut body = self.stuffed();
        let (more, emits) = self.statements(depth + 1, 4);
        body.extend(more);
        if body.len() == 1 && !emits && !self.mischief(12) {
            body.push(expression(self.literal()));
        }
        self.scope.close_function();
        body
    }

    // ---- expressions

    fn expr(&mut self, depth: usize) -> Grown {
        self.left -= 1;
        if !self.may_grow(depth) {
            return if self.rng.chance(500) { self.variable() } else { emits(self.literal()) };
        }
        match self.rng.below(100) {
            0..=19 => emits(self.literal()),
            20..=41 => self.variable(),
            42..=50 => emits(unary(self.rng.range(1, 2), self.mark(), self.expr(depth + 1).node)),
            51..=76 => emits(self.binary(depth)),
            77..=84 => {
                let (op, mark) = (self.rng.range(1, 2), self.mark());
                emits(logical(op, mark, self.expr(depth + 1).node, self.expr(depth + 1).node))
            }
            85..=93 => {
                let callee = self.expr(depth + 1).node;
                let arguments = (0..self.rng.below(5)).map(|_| self.expr(depth + 1).node).collect();
                emits(call(callee, self.mark(), arguments))
            }
            _ if self.may_nest() => {
                let params = self.pairs(3);
                emits(function(&params, self.function_body(None, &params, depth)))
            }
            _ => self.variable(),
        }
    }

    /// Often a number on the right of Plus or on the left of Minus.
    fn binary(&mut self, depth: usize) -> Node {
        let mark = self.mark();
        let number = bits(values::number_bits(self.rng));
        match self.rng.below(10) {
            0..=2 => binary(1, mark, self.expr(depth + 1).node, number),
            3..=4 => binary(8, mark, number, self.expr(depth + 1).node),
            _ => binary(self.rng.range(1, 12), mark, self.expr(depth + 1).node, self.expr(depth + 1).node),
        }
    }

    fn literal(&mut self) -> Node {
        match self.rng.below(10) {
            0..=5 => bits(values::number_bits(self.rng)),
            6..=7 => text(if self.rng.chance(200) { files::NONE } else { values::name(self.rng) }),
            _ => other(values::mark(self.rng)),
        }
    }

    /// A name that can be found here; an unknown one by mischief alone.
    fn variable(&mut self) -> Grown {
        let mark = self.mark();
        let known = self.scope.known();
        let name = match self.rng.below(12) {
            _ if self.mischief(9) => values::name(self.rng),
            0..=10 if !known.is_empty() => *self.rng.pick(&known),
            _ => self.rng.below(9) as u16,
        };
        Grown { node: variable((name, mark)), emits: !self.scope.is_local(name) }
    }
}
