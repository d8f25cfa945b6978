//! Takes the Rust's own function bodies from its files, unchanged, and writes them between hand-made surroundings.
//!
//! The folder of the Rust's files is given by the variable ROTO_SRC; it holds src/typechecker/expr.rs and so on. Where
//! it is not given, the harness is built without the Rust's text and says so when it runs.

#[path = "extract.rs"]
mod extract;

use extract::{item, join, method};
use std::path::{Path, PathBuf};
use std::process::Command;

fn generate(folder: &Path) -> String {
    let path = |file: &str| folder.join("src/typechecker").join(file).canonicalize().expect(file);
    let read = |file: &str| std::fs::read_to_string(path(file)).expect(file);
    let (types, scope, expr) = (read("types.rs"), read("scope.rs"), read("expr.rs"));
    let whole = |name: &str| format!("#[path = {:?}]\npub mod {name};\n\n", path(&format!("{name}.rs")));

    let type_items = join(
        [
            ("impl Type {", 0),
            ("pub enum Type {", 0),
            ("pub enum MustBeSigned {", 0),
            ("pub enum TypeDefinition {", 0),
            ("pub struct EnumVariant {", 0),
            ("pub enum Primitive {", 0),
            ("pub enum IntSize {", 0),
            ("pub enum IntKind {", 0),
            ("pub enum FloatSize {", 0),
            ("impl EnumVariant {", 0),
            ("pub struct TypeName {", 0),
            ("impl TypeName {", 1),
            ("impl TypeDefinition {", 1),
            ("pub struct Signature {", 0),
            ("impl Type {", 1),
        ]
        .map(|(start, nth)| item(&types, start, nth)),
    );
    let patterns = join(["match_patterns", "record_fields"].map(|name| method(&types, name)));
    let scope_items = join(
        [
            "pub struct ScopeRef(",
            "impl ScopeRef {",
            "pub struct ResolvedName {",
            "pub struct Declaration {",
            "pub enum DeclarationKind {",
            "pub struct FunctionDeclaration {",
            "pub enum TypeOrStub {",
            "pub enum ValueKind {",
            "pub struct ScopeGraph {",
            "struct Scope {",
            "struct Import {",
            "pub enum ScopeType {",
            "pub struct PackageScope {",
            "pub struct ModuleScope {",
        ]
        .map(|start| item(&scope, start, 0)),
    );
    let graph = join(
        ["wrap", "parent", "resolve_name", "get_declaration", "insert_var", "insert_declaration"]
            .map(|name| method(&scope, name)),
    );
    let context = join(["pub struct Context {", "impl Context {"].map(|start| item(&expr, start, 0)));
    let rules = join(
        ["block", "stmt", "literal", "match_expr", "binop", "record_fields", "access_field"]
            .map(|name| method(&expr, name)),
    );

    join(["unionfind", "type_cycle", "value_cycle"].map(whole))
        + &format!(
            "pub mod types {{\nuse super::around::types::*;\n{type_items}impl TypeDefinition {{\n{patterns}}}\n}}\n\n"
        )
        + &format!(
            "pub mod scope {{\nuse super::around::scope::*;\n{scope_items}impl ScopeGraph {{\n{graph}
    pub fn empty() -> Self {{
        let scope = Scope {{ scope_type: ScopeType::Root, parent: None, imports: BTreeMap::new() }};
        Self {{ declarations: BTreeMap::new(), scopes: vec![scope] }}
    }}\n}}\n}}\n\n"
        )
        + &format!("{context}impl TypeChecker {{\n{rules}}}\n")
}

/// Union-find for tests, beside the library of the entries.
fn link_cells() {
    println!("cargo::rerun-if-env-changed=RULEPACK_LIB");
    let folder = std::env::var("DEP_ENTRIES_FOLDER").expect("rulepack says where its library is");
    println!("cargo::rerun-if-changed={folder}/libcells_abi.a");
    if std::env::var_os("RULEPACK_LIB").is_none() {
        let repository = Path::new(env!("CARGO_MANIFEST_DIR")).join("../..");
        let status = Command::new(repository.join("bin/staticlib")).arg("cells_abi").status();
        assert!(status.is_ok_and(|s| s.success()), "`bin/staticlib cells_abi` failed");
    }
    println!("cargo::rustc-link-search=native={folder}");
    println!("cargo::rustc-link-lib=static=cells_abi");
}

fn main() {
    link_cells();
    println!("cargo::rustc-check-cfg=cfg(roto)");
    println!("cargo::rerun-if-env-changed=ROTO_SRC");
    println!("cargo::rerun-if-changed=build.rs");
    println!("cargo::rerun-if-changed=extract.rs");
    let Some(folder) = std::env::var_os("ROTO_SRC").map(PathBuf::from) else { return };
    if !folder.join("src/typechecker/expr.rs").exists() {
        println!("cargo::warning=ROTO_SRC has no src/typechecker/expr.rs: built without the Rust's text");
        return;
    }
    for file in ["unionfind", "type_cycle", "value_cycle", "types", "scope", "expr"] {
        println!("cargo::rerun-if-changed={}", folder.join(format!("src/typechecker/{file}.rs")).display());
    }
    let out = PathBuf::from(std::env::var_os("OUT_DIR").expect("OUT_DIR")).join("roto.rs");
    std::fs::write(out, generate(&folder)).expect("OUT_DIR");
    println!("cargo::rustc-cfg=roto");
}
