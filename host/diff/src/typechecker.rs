//! The surroundings of the Rust's text, made by hand: what its rules call and what 01 calls ours (unify, resolving, the
//! numeric tests, the rules of slot, field, record and return). Errors become 01's numbers and places.
//!
//! Refusals that the Rust's text has no room for, since it calls something that can't fail there, unwind: 37 from a
//! fresh variable, 36 from looking up the enum of a match. 35 of a record's or an arm's fields is asked where the text
//! first goes on: at the first field's value, at the first name that an arm binds.
//!
//! A numeric left operand of Add and Div is checked twice by the text (a listed difference). Here the second fresh
//! variable is the first one again, and the second check of the same node gives what the first gave.
#![allow(dead_code, unused_imports)]

use crate::roto::ast::{self, Identifier, Meta, MetaId, Pattern};
use model::Refusal;
use std::borrow::Borrow;
use std::collections::{HashMap, HashSet};

mod around {
    pub mod types {
        pub use super::super::scope::{ResolvedName, ScopeRef};
        pub use crate::roto::ast::{Identifier, Meta};
        pub use std::any::TypeId;
        pub use std::borrow::Borrow;

        /// The source of a function that is called: nothing of it is looked at.
        #[derive(Clone, Debug, PartialEq, Eq)]
        pub struct FunctionDefinition;
    }

    pub mod scope {
        pub use super::super::types::{EnumVariant, Signature, Type, TypeDefinition};
        pub use super::types::FunctionDefinition;
        pub use crate::roto::ast::{Identifier, Meta, MetaId};
        pub use std::collections::BTreeMap;
        pub use std::collections::btree_map::Entry;

        macro_rules! ice {
            ($($t:tt)*) => { panic!($($t)*) };
        }
        pub(crate) use ice;
    }
}

// A warning of the text goes nowhere.
macro_rules! println {
    ($($t:tt)*) => {
        ()
    };
}

include!(concat!(env!("OUT_DIR"), "/roto.rs"));

use scope::{DeclarationKind, ResolvedName, ScopeGraph, ScopeRef, ScopeType, ValueKind};
use types::{EnumVariant, MustBeSigned, Type, TypeDefinition, TypeName};
use unionfind::UnionFind;

pub type TypeError = Refusal;
pub type TypeResult<T> = Result<T, TypeError>;

const VARIABLES: usize = 2048;

/// A function that was chosen.
pub struct Function {
    pub name: Identifier,
}

pub struct TypeInfo {
    pub unionfind: UnionFind,
    pub scope_graph: ScopeGraph,
    pub expr_types: HashMap<MetaId, Type>,
    pub diverges: HashMap<MetaId, bool>,
    pub function_calls: HashMap<MetaId, Function>,
    /// The definitions by name, and those that have parameters.
    pub definitions: HashMap<ResolvedName, TypeDefinition>,
    pub with_parameters: HashSet<ResolvedName>,
    /// The nodes that are being checked, innermost last.
    pub nodes: Vec<MetaId>,
}

impl TypeInfo {
    fn resolve(&mut self, t: &Type) -> Type {
        match t {
            Type::Var(n) | Type::IntVar(n, _) | Type::FloatVar(n) | Type::RecordVar(n, _) => self.unionfind.find(*n),
            _ => t.clone(),
        }
    }

    /// The definition of a name. An enum with parameters in a match is 36.
    fn resolve_type_name(&mut self, name: ResolvedName) -> TypeDefinition {
        let definition = self.definitions[&name].clone();
        if matches!(definition, TypeDefinition::Enum(..)) && self.with_parameters.contains(&name) {
            let node = self.nodes.last().expect("a node");
            std::panic::panic_any(error(36, *node));
        }
        definition
    }

    fn primitive(t: &Type) -> Option<usize> {
        (0..18).find(|p| model::formed::is_primitive(*p) && primitive(*p) == *t)
    }

    fn is_int_type(&mut self, t: &Type) -> bool {
        let t = self.resolve(t);
        matches!(t, Type::IntVar(..)) || matches!(Self::primitive(&t), Some(8..=15))
    }

    fn is_numeric_type(&mut self, t: &Type) -> bool {
        let t = self.resolve(t);
        matches!(t, Type::IntVar(..) | Type::FloatVar(_)) || matches!(Self::primitive(&t), Some(8..=17))
    }
}

/// The type of a primitive of the paper.
pub fn primitive(n: usize) -> Type {
    let names = [
        "String", "char", "Asn", "IpAddr", "bool", "Prefix", "", "", "i8", "i16", "i32", "i64", "u8", "u16", "u32",
        "u64", "f32", "f64",
    ];
    Type::named(names[n], Vec::new())
}

fn error(number: u32, place: MetaId) -> TypeError {
    Refusal { number, place: place.0 as u32, detail: 0 }
}

/// Whether a type holds variables of kind 7 to 10 anywhere.
pub fn holds_variables(t: &Type) -> bool {
    match t {
        Type::Var(_) | Type::IntVar(..) | Type::FloatVar(_) | Type::RecordVar(..) => true,
        Type::Record(fields) => fields.iter().any(|(_, t)| holds_variables(t)),
        Type::Function(parameters, returns) => parameters.iter().any(holds_variables) || holds_variables(returns),
        Type::Name(name) => name.arguments.iter().any(holds_variables),
        Type::ExplicitVar(_) | Type::Unit | Type::Never => false,
    }
}

/// What binds a name: the node that is named by 34 and 35, and for an arm the examinee and the variant's name.
#[derive(Clone, Copy)]
pub struct Binder {
    pub place: MetaId,
    pub arm: Option<(MetaId, Identifier)>,
}

pub struct TypeChecker {
    pub type_info: TypeInfo,
    pub match_counter: usize,
    pub block_counter: usize,
    pub references: value_cycle::RefGraph,
    /// The types of the pack's rows.
    pub rows: Vec<Type>,
    /// For each definition the fields of a record, by its number; `None` for others and those with parameters.
    pub records: Vec<Option<Vec<(Meta<Identifier>, Type)>>>,
    /// The name's id is the place in this table.
    pub binders: Vec<Binder>,
    bound: HashSet<Identifier>,
    /// 35 is asked of these at the next node.
    pending: Option<(MetaId, Vec<Type>)>,
    /// The variable of a left operand of Add or Div that may be checked again.
    again: Option<Type>,
    /// The left operands of Add and Div, and those that were checked.
    pub lefts: HashSet<MetaId>,
    checked: HashMap<MetaId, bool>,
}

impl TypeChecker {
    pub fn new() -> Self {
        TypeChecker {
            type_info: TypeInfo {
                unionfind: UnionFind::default(),
                scope_graph: ScopeGraph::empty(),
                expr_types: HashMap::new(),
                diverges: HashMap::new(),
                function_calls: HashMap::new(),
                definitions: HashMap::new(),
                with_parameters: HashSet::new(),
                nodes: Vec::new(),
            },
            match_counter: 0,
            block_counter: 0,
            references: value_cycle::RefGraph::new(),
            rows: Vec::new(),
            records: Vec::new(),
            binders: Vec::new(),
            bound: HashSet::new(),
            pending: None,
            again: None,
            lefts: HashSet::new(),
            checked: HashMap::new(),
        }
    }

    // What document 01 calls ours.

    pub fn resolve_type(&mut self, t: &Type) -> Type {
        self.type_info.resolve(t)
    }

    fn unify(&mut self, a: &Type, b: &Type, span: MetaId, _cause: Option<MetaId>) -> TypeResult<Type> {
        use Type::*;
        let (a, b) = (self.resolve_type(a), self.resolve_type(b));
        if a == b {
            return Ok(a);
        }
        let variable = |t: &Type| matches!(t, Var(_) | IntVar(..) | FloatVar(_));
        if [&a, &b].into_iter().any(|t| !variable(t) && holds_variables(t)) {
            return Err(error(20, span));
        }
        let (is_int, is_float) = (
            |t: &Type| matches!(TypeInfo::primitive(t), Some(8..=15)),
            |t: &Type| matches!(TypeInfo::primitive(t), Some(16 | 17)),
        );
        let (cell, to) = match (&a, &b) {
            (Var(n), _) => (*n, b),
            (_, Var(n)) => (*n, a),
            (IntVar(n, _), IntVar(..)) | (FloatVar(n), FloatVar(_)) => (*n, b),
            (IntVar(n, _), t) if is_int(t) => (*n, b),
            (t, IntVar(n, _)) if is_int(t) => (*n, a),
            (FloatVar(n), t) if is_float(t) => (*n, b),
            (t, FloatVar(n)) if is_float(t) => (*n, a),
            _ => return Err(error(20, span)),
        };
        self.type_info.unionfind.set(cell, to.clone());
        Ok(to)
    }

    fn fresh(&mut self, f: impl FnOnce(usize) -> Type) -> Type {
        let mut number = 0;
        let t = self.type_info.unionfind.fresh(|n| {
            number = n;
            f(n)
        });
        if number >= VARIABLES {
            std::panic::panic_any(error(37, MetaId(0)));
        }
        t
    }

    fn fresh_var(&mut self) -> Type {
        match self.again.take() {
            Some(first) => first,
            None => self.fresh(Type::Var),
        }
    }

    fn fresh_int(&mut self) -> Type {
        self.fresh(|n| Type::IntVar(n, MustBeSigned::No))
    }

    fn fresh_float(&mut self) -> Type {
        self.fresh(Type::FloatVar)
    }

    /// The rules of document 01 that are not in the text: slot, field, record and return.
    pub fn expr(&mut self, scope: ScopeRef, ctx: &Context, expr: &Meta<ast::Expr>) -> TypeResult<bool> {
        use ast::Expr::*;
        let id = expr.id;
        self.again = None;
        if let Some((place, types)) = self.pending.take()
            && types.iter().any(holds_variables)
        {
            return Err(error(35, place));
        }
        if let Some(diverges) = self.checked.get(&id) {
            return Ok(*diverges);
        }
        self.type_info.expr_types.insert(id, ctx.expected_type.clone());
        self.type_info.nodes.push(id);
        let diverges = match &expr.node {
            Literal(l) => self.literal(ctx, l)?,
            Slot(ident) => {
                let Some(declaration) = self.type_info.scope_graph.resolve_name(scope, ident, true) else {
                    return Err(error(33, id));
                };
                let DeclarationKind::Value(ValueKind::Local, Some(t)) = declaration.kind else { unreachable!() };
                self.unify(&ctx.expected_type, &t, id, None)?;
                false
            }
            Block(b) => {
                let idx = self.block_counter;
                self.block_counter += 1;
                let block_scope = self.type_info.scope_graph.wrap(scope, ScopeType::Block(idx));
                self.block(block_scope, ctx, b)?
            }
            Match(m) => self.match_expr(scope, ctx, m)?,
            BinOp(left, op, right) => self.binop(scope, ctx, op, id, left, right)?,
            Record(definition, record) => {
                let Some(fields) = self.records[*definition].clone() else {
                    return Err(error(36, id));
                };
                self.pending = Some((id, fields.iter().map(|(_, t)| t.clone()).collect()));
                let diverges = self.record_fields(scope, ctx, fields, record, id)?;
                self.pending = None;
                self.unify(&ctx.expected_type, &definition_type(*definition), id, None)?;
                diverges
            }
            Access(e, field) => {
                let t = self.fresh_var();
                let diverges = self.expr(scope, &ctx.with_type(&t), e)?;
                let t = self.resolve_type(&t);
                if matches!(&t, Type::Name(name) if self.has_parameters(name)) {
                    return Err(error(36, id));
                }
                let t = self.access_field(&t, field)?;
                if holds_variables(&t) {
                    return Err(error(35, id));
                }
                self.unify(&ctx.expected_type, &t, id, None)?;
                diverges
            }
            Return(e) => {
                let returns = ctx.function_return_type.clone().expect("a root has a return type");
                match e {
                    Some(e) => drop(self.expr(scope, &ctx.with_type(&returns), e)?),
                    None => drop(self.unify(&returns, &Type::unit(), id, None)?),
                }
                true
            }
        };
        self.type_info.nodes.pop();
        self.type_info.diverges.insert(id, diverges);
        if self.lefts.contains(&id) {
            self.checked.insert(id, diverges);
            self.again = Some(ctx.expected_type.clone());
        }
        Ok(diverges)
    }

    /// Whether the definition of this name has parameters. A list's first argument is its number.
    fn has_parameters(&self, name: &TypeName) -> bool {
        let list = matches!(&self.type_info.definitions.get(&name.name), Some(TypeDefinition::List(_)));
        name.arguments.len() > usize::from(list)
    }

    // What the text calls.

    fn flatten_import_paths(_paths: &mut Vec<()>, _path: &()) {}

    fn imports(&mut self, _scope: ScopeRef, _paths: Vec<()>) -> TypeResult<()> {
        Ok(())
    }

    fn evaluate_type_expr(&self, _scope: ScopeRef, t: &ast::TypeExpr) -> TypeResult<Type> {
        let place = t.place;
        let t = self.rows[t.row].clone();
        if holds_variables(&t) { Err(error(35, place)) } else { Ok(t) }
    }

    pub fn insert_var(&mut self, scope: ScopeRef, k: Meta<Identifier>, t: impl Borrow<Type>) -> TypeResult<()> {
        let Binder { place, arm } = self.binders[k.id.0];
        if let Some((examinee, variant)) = arm
            && self.variant_fields(examinee, variant).iter().any(holds_variables)
        {
            return Err(error(35, place));
        }
        if !self.bound.insert(k.node) {
            return Err(error(34, place));
        }
        self.type_info.scope_graph.insert_var(scope, &k, t.borrow()).map_err(|_| error(34, place))?;
        Ok(())
    }

    /// The field types of a variant of the enum that an examinee was found to be.
    fn variant_fields(&mut self, examinee: MetaId, variant: Identifier) -> Vec<Type> {
        let t = self.type_info.expr_types[&examinee].clone();
        let Type::Name(name) = self.resolve_type(&t) else { unreachable!("an enum") };
        let TypeDefinition::Enum(_, variants) = &self.type_info.definitions[&name.name] else {
            unreachable!("an enum")
        };
        variants.iter().find(|v| v.name == variant).expect("a variant").fields.clone()
    }

    fn get_function_in_type(&mut self, _t: ResolvedName, method: Identifier) -> Option<Function> {
        Some(Function { name: method })
    }

    // Errors of the text, as numbers and places.

    fn error_simple(&self, _what: &str, _label: &str, id: MetaId) -> TypeError {
        error(23, id)
    }

    fn error_can_only_match_on_enum(&self, _t: &Type, id: MetaId) -> TypeError {
        error(24, id)
    }

    fn error_unreachable_expression(&self, body: &Meta<ast::Expr>) -> TypeError {
        error(25, body.id)
    }

    fn error_variant_does_not_exist(&self, variant: &Meta<Identifier>, _t: &Type) -> TypeError {
        error(26, variant.id)
    }

    fn error_variant_does_not_have_fields(&self, variant: &Meta<Identifier>, _t: &Type) -> TypeError {
        error(27, variant.id)
    }

    fn error_need_arguments_on_pattern(&self, variant: &Meta<Identifier>, _t: &Type) -> TypeError {
        error(28, variant.id)
    }

    fn error_number_of_arguments_dont_match(
        &self,
        _what: &str,
        variant: &Meta<Identifier>,
        _wanted: usize,
        _given: usize,
    ) -> TypeError {
        error(29, variant.id)
    }

    fn error_nonexhaustive_match(&self, span: MetaId, missing: &[Identifier]) -> TypeError {
        TypeError { detail: missing.len() as u64, ..error(30, span) }
    }

    fn error_field_mismatch(
        &self,
        span: MetaId,
        invalid: Vec<&Meta<Identifier>>,
        duplicate: Vec<&Meta<Identifier>>,
        missing: Vec<Identifier>,
    ) -> TypeError {
        let detail = (invalid.len() as u64) << 28 | (duplicate.len() as u64) << 14 | missing.len() as u64;
        TypeError { detail, ..error(31, span) }
    }

    fn error_no_field_on_type(&self, _t: &Type, field: &Meta<Identifier>) -> TypeError {
        error(32, field.id)
    }

    fn error_expected_numeric_value(&self, left: &Meta<ast::Expr>, _t: &Type) -> TypeError {
        error(21, left.id)
    }

    fn error_expected_int_value(&self, left: &Meta<ast::Expr>, _t: &Type) -> TypeError {
        error(22, left.id)
    }

    /// 50 or 51: which of the two follows from the references.
    fn error_recursive_constant(&self, _name: Identifier, id: MetaId) -> TypeError {
        error(51, id)
    }

    fn error_constant_uses_context(&self, _name: Identifier, id: MetaId) -> TypeError {
        error(52, id)
    }
}

/// The type that names a definition that is no list and has no parameters.
pub fn definition_type(definition: usize) -> Type {
    Type::Name(TypeName { name: definition_name(definition), arguments: Vec::new() })
}

pub fn definition_name(definition: usize) -> ResolvedName {
    ResolvedName { scope: ScopeRef::GLOBAL, ident: Identifier::Definition(definition) }
}
