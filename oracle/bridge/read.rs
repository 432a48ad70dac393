// Part of two crates: a checked tree file becomes the source's syntax tree.
// `node!` makes a node of the syntax tree; the traced copy keeps the node's number in it.
use crate::expr::*;
use crate::names::{name_token, other_literal, text_literal, token};
use crate::stmt::*;
use crate::token::*;
use files::tree::{is_wide, Field};
use files::NONE;

const UNARY: [Token; 2] = [Token::Not, Token::Minus];
const LOGICAL: [Token; 2] = [Token::Or, Token::And];
const BINARY: [Token; 12] = [
    Token::Plus,
    Token::Less,
    Token::EqualEqual,
    Token::BangEqual,
    Token::Greater,
    Token::GreaterEqual,
    Token::LessEqual,
    Token::Minus,
    Token::Slash,
    Token::Mod,
    Token::Star,
    Token::Power,
];

/// The statements of the program, which is the last node.
pub fn program(fields: &[Field]) -> Vec<Stmt> {
    let tree = Tree { fields, wide: is_wide(fields) };
    tree.words(fields.len() - 1).stmts()
}

#[derive(Clone, Copy)]
struct Tree<'t> {
    fields: &'t [Field<'t>],
    wide: bool,
}

/// The words of a payload that are still to be read.
struct Words<'t> {
    tree: Tree<'t>,
    words: std::vec::IntoIter<u16>,
}

impl<'t> Words<'t> {
    fn word(&mut self) -> u16 {
        self.words.next().expect("a checked payload")
    }

    /// One word, or two in a wide tree.
    fn mark(&mut self) -> u32 {
        let high = if self.tree.wide { self.word() } else { 0 };
        u32::from(high) << 16 | u32::from(self.word())
    }

    fn operator(&mut self, tokens: &[Token]) -> TokenData {
        let op = tokens[usize::from(self.word()) - 1];
        token(op, self.mark())
    }

    fn keyword(&mut self, keyword: Token) -> TokenData {
        token(keyword, self.mark())
    }

    fn name(&mut self) -> TokenData {
        let name = self.word();
        name_token(name, self.mark())
    }

    fn names(&mut self, n: u16) -> Vec<TokenData> {
        (0..n).map(|_| self.name()).collect()
    }

    /// A count, then as many names.
    fn params(&mut self) -> Vec<TokenData> {
        let k = self.word();
        self.names(k)
    }

    fn expr(&mut self) -> Expr {
        let node = self.word();
        self.tree.expr(node.into())
    }

    fn boxed_expr(&mut self) -> Box<Expr> {
        Box::new(self.expr())
    }

    fn perhaps_expr(&mut self) -> Option<Expr> {
        (self.words.len() > 0).then(|| self.expr())
    }

    fn exprs(&mut self) -> Vec<Expr> {
        let tree = self.tree;
        self.words.by_ref().map(|node| tree.expr(node.into())).collect()
    }

    fn boxed_stmt(&mut self) -> Box<Stmt> {
        let node = self.word();
        Box::new(self.tree.stmt(node.into()))
    }

    fn stmts(&mut self) -> Vec<Stmt> {
        let tree = self.tree;
        self.words.by_ref().map(|node| tree.stmt(node.into())).collect()
    }

    /// A count, then as many children, each read by `read`.
    fn counted<T>(&mut self, read: impl Fn(Tree<'t>, usize) -> T) -> Vec<T> {
        let n = self.word();
        (0..n).map(|_| read(self.tree, self.word().into())).collect()
    }
}

impl<'t> Tree<'t> {
    fn words(self, node: usize) -> Words<'t> {
        Words { tree: self, words: self.fields[node].words().into_iter() }
    }

    fn expr(self, node: usize) -> Expr {
        let mut w = self.words(node);
        match self.fields[node].tag {
            0x01 => {
                let bits = u64::from_be_bytes(self.fields[node].payload.try_into().unwrap());
                Expr::Literal(node!(node, LiteralExpr { value: Literal::Number(f64::from_bits(bits)) }))
            }
            0x02 => Expr::Literal(node!(node, LiteralExpr { value: text_literal(w.word()) })),
            0x03 => Expr::Literal(node!(node, LiteralExpr { value: other_literal(w.word()) })),
            0x04 => Expr::Var(self.variable(node)),
            0x05 => Expr::Unary(node!(node, UnaryExpr { operator: w.operator(&UNARY), right: w.boxed_expr() })),
            0x06 => {
                let operator = w.operator(&BINARY);
                Expr::Binary(node!(node, BinaryExpr { operator, left: w.boxed_expr(), right: w.boxed_expr() }))
            }
            0x07 => {
                let operator = w.operator(&LOGICAL);
                Expr::Logical(node!(node, LogicalExpr { operator, left: w.boxed_expr(), right: w.boxed_expr() }))
            }
            0x08 => Expr::Call(node!(
                node,
                CallExpr { callee: w.boxed_expr(), paren: w.keyword(Token::RightParen), arguments: w.exprs() }
            )),
            0x09 => Expr::Fn(node!(node, FnExpr { params: w.params(), body: w.stmts() })),
            tag => unreachable!("tag {tag:02X} is no expression"),
        }
    }

    fn variable(self, node: usize) -> VarExpr {
        node!(node, VarExpr { name: Some(self.words(node).name()) })
    }

    fn stmt(self, node: usize) -> Stmt {
        let mut w = self.words(node);
        match self.fields[node].tag {
            0x10 => Stmt::Expr(node!(node, ExprStmt { last: None, expression: w.expr() })),
            0x11 => Stmt::Let(node!(node, LetStmt { name: w.name(), initializer: w.perhaps_expr() })),
            0x12 => Stmt::Block(node!(node, BlockStmt { stmts: w.stmts() })),
            0x13 => Stmt::While(node!(
                node,
                WhileStmt { keyword: w.keyword(Token::While), condition: w.expr(), body: w.boxed_stmt() }
            )),
            0x14 => self.classic_for(node),
            0x15 => self.enhanced_for(node),
            0x16 => Stmt::Break(node!(node, BreakStmt { keyword: w.keyword(Token::Break) })),
            0x17 => Stmt::Continue(node!(node, ContinueStmt { keyword: w.keyword(Token::Continue) })),
            0x18 => {
                Stmt::Return(node!(node, ReturnStmt { keyword: w.keyword(Token::Return), value: w.perhaps_expr() }))
            }
            0x19 => Stmt::If(node!(
                node,
                IfStmt {
                    keyword: w.keyword(Token::If),
                    condition: w.expr(),
                    then_branch: w.counted(Tree::stmt),
                    elifs: w.counted(Tree::elif),
                    else_branch: w.stmts(),
                }
            )),
            0x1B => Stmt::TryCatch(node!(
                node,
                TryCatchStmt { try_body: w.boxed_stmt(), name: w.name(), catch_body: w.boxed_stmt() }
            )),
            0x1C => Stmt::Fn(self.function(node)),
            0x1D => self.class(node),
            tag => unreachable!("tag {tag:02X} is no statement"),
        }
    }

    fn classic_for(self, node: usize) -> Stmt {
        let mut w = self.words(node);
        let keyword = w.keyword(Token::For);
        let initializer = Some(w.word()).filter(|child| *child != NONE);
        Stmt::ClassicFor(node!(
            node,
            ClassicForStmt {
                keyword,
                initializer: initializer.map(|child| Box::new(self.stmt(child.into()))),
                condition: w.expr(),
                increment: w.expr(),
                body: w.boxed_stmt(),
            }
        ))
    }

    fn enhanced_for(self, node: usize) -> Stmt {
        let mut w = self.words(node);
        let keyword = w.keyword(Token::For);
        let collection = w.expr();
        let body = w.boxed_stmt();
        let pairs = w.words.len() / if self.wide { 3 } else { 2 };
        Stmt::EnhancedFor(node!(
            node,
            EnhancedForStmt { keyword, collection, body, identifiers: w.names(pairs as u16) }
        ))
    }

    fn elif(self, node: usize) -> ElifBranch {
        let mut w = self.words(node);
        node!(node, ElifBranch { condition: w.expr(), then_branch: w.stmts() })
    }

    fn function(self, node: usize) -> FnStmt {
        let mut w = self.words(node);
        node!(node, FnStmt { name: w.name(), params: w.params(), body: w.stmts() })
    }

    fn class(self, node: usize) -> Stmt {
        let mut w = self.words(node);
        let name = Some(w.name());
        let superclass = Some(w.word()).filter(|child| *child != NONE);
        let methods = w.counted(Tree::function);
        let rest: Vec<u16> = w.words.collect();
        Stmt::Class(node!(
            node,
            ClassStmt {
                name,
                superclass: superclass.map(|child| self.variable(child.into())),
                methods,
                static_methods: rest.iter().map(|child| self.function((*child).into())).collect(),
            }
        ))
    }
}
