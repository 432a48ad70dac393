//! Which names the source would find, so that random programs are mostly accepted.

pub struct Scope {
    pub globals: Vec<u16>,
    functions: Vec<Open>,
}

/// An open function: the names of its open blocks, and how many loops are open.
struct Open {
    blocks: Vec<Vec<u16>>,
    loops: usize,
}

impl Scope {
    pub fn new() -> Scope {
        Scope { globals: vec![], functions: vec![Open { blocks: vec![vec![]], loops: 0 }] }
    }

    fn current(&mut self) -> &mut Open {
        self.functions.last_mut().unwrap()
    }

    /// One open function with one open block.
    pub fn is_global(&self) -> bool {
        self.functions.len() == 1 && self.functions[0].blocks.len() == 1
    }

    pub fn open_functions(&self) -> usize {
        self.functions.len()
    }

    pub fn in_loop(&self) -> bool {
        self.functions.last().unwrap().loops > 0
    }

    pub fn declare(&mut self, name: u16) {
        self.current().blocks.last_mut().unwrap().push(name);
    }

    pub fn open_block(&mut self) {
        self.current().blocks.push(vec![]);
    }

    pub fn close_block(&mut self) {
        self.current().blocks.pop();
    }

    pub fn open_loop(&mut self) {
        self.current().loops += 1;
    }

    pub fn close_loop(&mut self) {
        self.current().loops -= 1;
    }

    /// Its name and parameters stand in one block, its body in a second.
    pub fn open_function(&mut self, name: Option<u16>, params: impl Iterator<Item = u16>) {
        self.functions.push(Open { blocks: vec![name.into_iter().chain(params).collect(), vec![]], loops: 0 });
    }

    pub fn close_function(&mut self) {
        self.functions.pop();
    }

    /// The names of the current function's open blocks.
    pub fn locals(&self) -> Vec<u16> {
        self.functions.last().unwrap().blocks.concat()
    }

    pub fn is_local(&self, name: u16) -> bool {
        self.functions.last().unwrap().blocks.iter().flatten().any(|n| *n == name)
    }

    /// All names that can be found but the builtins. Main is searched from within only while a second block is open.
    pub fn known(&self) -> Vec<u16> {
        let hidden = usize::from(self.functions.len() > 1 && self.functions[0].blocks.len() == 1);
        let locals = self.functions[hidden..].iter().flat_map(|f| f.blocks.iter().flatten());
        locals.chain(&self.globals).copied().collect()
    }
}
