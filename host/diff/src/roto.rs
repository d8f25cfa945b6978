//! The Rust's own text on packs: each part of a pack is turned into what the text works on, and its answer is turned
//! back into document 01's.

pub mod ast;

use crate::typechecker::scope::{Declaration, DeclarationKind, ResolvedName, ScopeRef, ScopeType, ValueKind};
use crate::typechecker::type_cycle::detect_type_cycles;
use crate::typechecker::types::{EnumVariant, MustBeSigned, Primitive, Type, TypeDefinition, TypeName};
use crate::typechecker::{Binder, Context, TypeChecker, definition_name, holds_variables, primitive};
use ast::{Identifier, Meta, MetaId};
use model::pack::{Pack, UNDERSCORE};
use model::{Answer, Refusal};
use std::any::TypeId;
use std::collections::HashMap;
use std::panic::{AssertUnwindSafe, catch_unwind};

fn name(n: usize) -> Meta<Identifier> {
    Meta { node: Identifier::Name(n), id: MetaId(0) }
}

/// Lists all have the name that the text asks for; which definition it is stands in a first argument.
fn list_name() -> ResolvedName {
    ResolvedName { scope: ScopeRef::STD, ident: "List".into() }
}

fn named(pack: &Pack, definition: usize, arguments: Vec<Type>) -> Type {
    if pack.definition(definition).kind == 3 {
        let mut all = vec![Type::ExplicitVar(Identifier::Definition(definition))];
        all.extend(arguments);
        return Type::Name(TypeName { name: list_name(), arguments: all });
    }
    Type::Name(TypeName { name: definition_name(definition), arguments })
}

/// The types of a pack's rows, or `None` where they would be too large without sharing.
pub fn rows(pack: &Pack) -> Option<Vec<Type>> {
    let mut rows: Vec<Type> = Vec::new();
    let mut sizes: Vec<usize> = Vec::new();
    for id in 0..pack.counts.types {
        let size = 1 + pack.type_parts(id).iter().map(|t| sizes[*t]).sum::<usize>();
        if size > 10_000 {
            return None;
        }
        sizes.push(size);
        let row = pack.type_row(id);
        let singles = || pack.items::<1>(row.b).into_iter().map(|[t]| rows[t].clone()).collect::<Vec<_>>();
        let pairs = || pack.items::<2>(row.b).into_iter().map(|[n, t]| (name(n), rows[t].clone())).collect();
        let t = match row.kind {
            0 => Type::Never,
            1 => Type::Unit,
            2 => primitive(row.a),
            3 => Type::ExplicitVar(Identifier::Explicit(row.a)),
            4 => named(pack, row.a, singles()),
            5 => Type::Record(pairs()),
            6 => Type::Function(singles(), Box::new(rows[row.a].clone())),
            7 => Type::Var(row.a),
            8 => Type::IntVar(row.a, MustBeSigned::No),
            9 => Type::FloatVar(row.a),
            _ => Type::RecordVar(row.a, pairs()),
        };
        rows.push(t);
    }
    Some(rows)
}

fn definitions(pack: &Pack, rows: &[Type]) -> HashMap<ResolvedName, TypeDefinition> {
    let mut all = HashMap::new();
    for p in (0..18).filter(|p| model::formed::is_primitive(*p)) {
        let Type::Name(TypeName { name, .. }) = primitive(p) else { unreachable!() };
        // Which primitive it is is never asked of the definition.
        all.insert(name, TypeDefinition::Primitive(Primitive::Bool));
    }
    for d in 0..pack.counts.definitions {
        let row = pack.definition(d);
        let arguments = (0..row.parameters).map(|n| Type::ExplicitVar(Identifier::Explicit(n))).collect();
        let type_name = TypeName { name: definition_name(d), arguments };
        let definition = match row.kind {
            0 => {
                let variants = pack.items::<2>(row.list).into_iter().map(|[n, start]| EnumVariant {
                    name: Identifier::Name(n),
                    fields: pack.items::<1>(start).into_iter().map(|[t]| rows[t].clone()).collect(),
                });
                TypeDefinition::Enum(type_name, variants.collect())
            }
            1 => {
                let fields = pack.items::<2>(row.list).into_iter().map(|[n, t]| (name(n), rows[t].clone()));
                TypeDefinition::Record(type_name, fields.collect())
            }
            2 => TypeDefinition::Runtime(definition_name(d), TypeId::of::<()>()),
            _ => {
                all.insert(list_name(), TypeDefinition::List(type_name));
                continue;
            }
        };
        all.insert(definition_name(d), definition);
    }
    all
}

/// What the text says of the definitions: accepted, 40 or 41. It gives no place.
pub fn types(pack: &Pack) -> Option<Result<(), u32>> {
    let rows = rows(pack)?;
    Some(detect_type_cycles(&definitions(pack, &rows)).map_err(|text| match text.as_str() {
        "cycle detected!" => 41,
        "there should be no unresolved type variables left" => 40,
        _ => unreachable!("{text}"),
    }))
}

/// The order of the values, all entered by `add_node`.
pub fn order(pack: &Pack) -> Answer<Vec<usize>> {
    let mut checker = TypeChecker::new();
    let name = |v: usize| ResolvedName { scope: ScopeRef::GLOBAL, ident: Identifier::Value(v) };
    let references = |v: usize| pack.items::<1>(pack.value(v).list).into_iter().map(|[w]| w);
    for v in 0..pack.counts.values {
        let kind = match pack.value(v).kind {
            0 => DeclarationKind::Value(ValueKind::Constant, None),
            1 => DeclarationKind::Function(None),
            2 => DeclarationKind::Value(ValueKind::Context(0), None),
            _ => DeclarationKind::Value(ValueKind::Local, None),
        };
        let declaration = Declaration { name: name(v), kind, id: MetaId(v), scope: None, doc: String::new() };
        checker.type_info.scope_graph.declarations.insert(name(v), declaration);
        checker.references.add_node(name(v));
    }
    for v in 0..pack.counts.values {
        for w in references(v) {
            checker.references.add_edge(name(v), name(w));
        }
    }
    let listed = checker.find_compilation_order().map_err(|r| {
        let itself = r.number == 51 && references(r.place as usize).any(|w| w == r.place as usize);
        Refusal { number: if itself { 50 } else { r.number }, ..r }
    })?;
    Ok(listed
        .iter()
        .map(|name| match name.ident {
            Identifier::Value(v) => v,
            _ => unreachable!(),
        })
        .collect())
}

/// Turns expressions into a syntax tree.
struct Reader<'a> {
    pack: &'a Pack<'a>,
    checker: &'a mut TypeChecker,
}

impl Reader<'_> {
    fn at<T>(id: usize, node: T) -> Meta<T> {
        Meta { node, id: MetaId(id) }
    }

    fn binder(&mut self, slot: usize, place: usize, arm: Option<(MetaId, Identifier)>) -> Meta<Identifier> {
        self.checker.binders.push(Binder { place: MetaId(place), arm });
        Self::at(self.checker.binders.len() - 1, Identifier::Slot(slot))
    }

    fn literal(op: usize) -> ast::Literal {
        use ast::{FloatType::*, IntType::*, Literal::*};
        match op {
            0 => String(()),
            1 => Char(()),
            2 => Asn(()),
            3 => IpAddress(()),
            4 => Bool(()),
            5 => Integer((), None),
            6 => Float((), None),
            7 => Unit,
            8 => Integer((), Some(I8)),
            9 => Integer((), Some(I16)),
            10 => Integer((), Some(I32)),
            11 => Integer((), Some(I64)),
            12 => Integer((), Some(U8)),
            13 => Integer((), Some(U16)),
            14 => Integer((), Some(U32)),
            15 => Integer((), Some(U64)),
            16 => Float((), Some(F32)),
            _ => Float((), Some(F64)),
        }
    }

    fn boxed(&mut self, id: usize) -> Box<Meta<ast::Expr>> {
        Box::new(self.expr(id))
    }

    fn statement(&mut self, id: usize) -> Meta<ast::Stmt> {
        let row = self.pack.expression(id);
        if row.kind != 3 {
            return Self::at(id, ast::Stmt::Expr(self.expr(id)));
        }
        let written = (row.c != 0).then(|| ast::TypeExpr { row: row.c - 1, place: MetaId(id) });
        let value = self.expr(row.b);
        let ident = self.binder(row.a, id, None);
        Self::at(id, ast::Stmt::Let(ident, written, value))
    }

    fn expr(&mut self, id: usize) -> Meta<ast::Expr> {
        use ast::{BinOp::*, Expr};
        let row = self.pack.expression(id);
        let node = match row.kind {
            0 => Expr::Literal(Self::at(id, Self::literal(row.op))),
            1 => Expr::Slot(Self::at(id, Identifier::Slot(row.a))),
            2 => {
                let stmts = self.pack.items::<1>(row.a).into_iter().map(|[s]| self.statement(s)).collect();
                let last = (row.b != 0).then(|| self.boxed(row.b - 1));
                Expr::Block(Self::at(id, ast::Block { stmts, last }))
            }
            4 => {
                let expr = self.expr(row.a);
                let mut arms = Vec::new();
                for arm in self.pack.arms(row.b) {
                    let pattern = if arm.variant == UNDERSCORE {
                        ast::Pattern::Underscore
                    } else {
                        let variant = Identifier::Name(arm.variant);
                        let of = Some((MetaId(row.a), variant));
                        let fields = (arm.slots != 0).then(|| {
                            let slots = self.pack.items::<1>(arm.slots - 1);
                            Self::at(id, slots.into_iter().map(|[s]| self.binder(s, id, of)).collect())
                        });
                        ast::Pattern::EnumVariant { variant: Self::at(id, variant), fields }
                    };
                    let guard = (arm.guard != 0).then(|| self.expr(arm.guard - 1));
                    let body = self.expr(arm.body);
                    arms.push(Self::at(id, ast::MatchArm { pattern: Self::at(id, pattern), guard, body }));
                }
                Expr::Match(Box::new(Self::at(id, ast::Match { expr, arms: Self::at(id, arms) })))
            }
            5 => {
                let op = [And, Or, Lt, Le, Gt, Ge, Eq, Ne, Add, Sub, Mul, Div, Mod, Exp][row.op];
                if matches!(op, Add | Div) {
                    self.checker.lefts.insert(MetaId(row.a));
                }
                let left = self.boxed(row.a);
                Expr::BinOp(left, op, self.boxed(row.b))
            }
            6 => {
                let fields = self
                    .pack
                    .items::<2>(row.b)
                    .into_iter()
                    .map(|[n, e]| ast::RecordField { name: Self::at(id, Identifier::Name(n)), expr: self.expr(e) });
                Expr::Record(row.a, ast::Record { fields: fields.collect() })
            }
            7 => Expr::Access(self.boxed(row.a), Self::at(id, Identifier::Name(row.b))),
            8 => Expr::Return((row.a != 0).then(|| self.boxed(row.a - 1))),
            _ => unreachable!("a let is a statement"),
        };
        Self::at(id, node)
    }
}

/// The tag and number of a resolved type.
fn tag(rows: &[Type], t: &Type) -> (u32, usize) {
    let row = || rows.iter().position(|row| row == t).expect("a row of this structure");
    match t {
        Type::Never => (0, 0),
        Type::Unit => (1, 0),
        Type::Var(n) => (4, *n),
        Type::IntVar(n, _) => (5, *n),
        Type::FloatVar(n) => (6, *n),
        Type::Name(TypeName { name, arguments }) => {
            if let Some(p) = (0..18).find(|p| model::formed::is_primitive(*p) && primitive(*p) == *t) {
                return (2, p);
            }
            match (name.ident, arguments.as_slice()) {
                (Identifier::Definition(d), []) => (7, d),
                (Identifier::Std("List"), [Type::ExplicitVar(Identifier::Definition(d))]) => (7, *d),
                _ => (3, row()),
            }
        }
        _ => (3, row()),
    }
}

fn check(pack: &Pack, root: usize, checker: &mut TypeChecker) -> Answer<Vec<(usize, u32)>> {
    let row = pack.root(root);
    let parameters = pack.items::<2>(row.list);
    let returns = checker.rows[row.returns].clone();
    // 35 and 34 of the root are ours.
    let refuse = |number| Err(Refusal { number, place: row.body as u32, detail: 0 });
    if parameters.iter().any(|[_, t]| holds_variables(&checker.rows[*t])) || holds_variables(&returns) {
        return refuse(35);
    }
    let scope = checker.type_info.scope_graph.wrap(ScopeRef::GLOBAL, ScopeType::Function(Identifier::Root));
    for [slot, t] in parameters {
        let t = checker.rows[t].clone();
        let ident = Reader { pack, checker }.binder(slot, row.body, None);
        checker.insert_var(scope, ident, t)?;
    }
    let body = Reader { pack, checker }.expr(row.body);
    let ctx = Context {
        expected_type: returns.clone(),
        function_return_type: Some(returns),
        item: ResolvedName { scope: ScopeRef::GLOBAL, ident: Identifier::Root },
    };
    checker.expr(scope, &ctx, &body)?;

    // Lets have no entry of their own in the text.
    let mut nodes: Vec<usize> = checker.type_info.expr_types.keys().map(|id| id.0).collect();
    for id in (0..pack.counts.expressions).filter(|id| pack.expression(*id).kind == 3) {
        if let Some(diverges) = checker.type_info.diverges.get(&MetaId(pack.expression(id).b)).copied() {
            nodes.push(id);
            checker.type_info.expr_types.insert(MetaId(id), Type::unit());
            checker.type_info.diverges.insert(MetaId(id), diverges);
        }
    }
    nodes.sort_unstable();
    Ok(nodes
        .into_iter()
        .map(|node| {
            let id = MetaId(node);
            let t = checker.type_info.expr_types[&id].clone();
            let t = checker.resolve_type(&t);
            let (tag, number) = tag(&checker.rows, &t);
            let call = match checker.type_info.function_calls.get(&id).map(|f| f.name) {
                None => 0,
                Some(Identifier::Std("new")) => 1,
                Some(Identifier::Std("append")) => 2,
                Some(Identifier::Std("concat")) => 3,
                Some(other) => unreachable!("{other}"),
            };
            let diverges = u32::from(checker.type_info.diverges[&id]);
            (node, diverges << 31 | call << 29 | tag << 26 | number as u32)
        })
        .collect())
}

/// The words of a root, or a refusal, by the text. `None` where the pack's types are too large without sharing.
pub fn root(pack: &Pack, root: usize) -> Option<Answer<Vec<(usize, u32)>>> {
    let rows = rows(pack)?;
    let mut checker = TypeChecker::new();
    checker.type_info.definitions = definitions(pack, &rows);
    for d in 0..pack.counts.definitions {
        let row = pack.definition(d);
        if row.parameters != 0 {
            checker.type_info.with_parameters.insert(definition_name(d));
        }
        let fields = (row.kind == 1 && row.parameters == 0)
            .then(|| pack.items::<2>(row.list).into_iter().map(|[n, t]| (name(n), rows[t].clone())).collect());
        checker.records.push(fields);
    }
    checker.rows = rows;
    let answer = catch_unwind(AssertUnwindSafe(|| check(pack, root, &mut checker)));
    Some(answer.unwrap_or_else(|payload| match payload.downcast::<Refusal>() {
        Ok(refusal) => Err(*refusal),
        Err(payload) => std::panic::resume_unwind(payload),
    }))
}

/// Refusals that unwind print nothing.
pub fn quiet() {
    let before = std::panic::take_hook();
    std::panic::set_hook(Box::new(move |info| {
        if !info.payload().is::<Refusal>() {
            before(info);
        }
    }));
}
