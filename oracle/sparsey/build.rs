//! Puts the given sources, byte for byte, beside our stand-ins for the files that are not at hand, under OUT_DIR.

use std::path::{Path, PathBuf};
use std::{env, fs};

/// The files that the harness needs, as they stand under the given folder.
const GIVEN: [&str; 19] = [
    "component/component_data.rs",
    "component/component_set.rs",
    "component/component_sparse_set.rs",
    "component/component_storage.rs",
    "component/group.rs",
    "component/group_info.rs",
    "component/group_layout.rs",
    "component/group_mask.rs",
    "component/mod.rs",
    "component/storage_mask.rs",
    "component/view.rs",
    "entity/entity_allocator.rs",
    "entity/entity_sparse_set.rs",
    "entity/entity_storage.rs",
    "entity/mod.rs",
    "entity/sparse_vec.rs",
    "query/mod.rs",
    "query/query_all.rs",
    "world/mod.rs",
];

const STANDINS: [&str; 4] = [
    "query/iter.rs",
    "query/query_one.rs",
    "query/query_part.rs",
    "world/builder.rs",
];

fn main() {
    let here = PathBuf::from(env::var("CARGO_MANIFEST_DIR").unwrap());
    let tree = PathBuf::from(env::var("OUT_DIR").unwrap()).join("tree");

    println!("cargo:rerun-if-env-changed=SPARSEY_SRC");
    let given = match env::var("SPARSEY_SRC") {
        Ok(path) => PathBuf::from(path),
        Err(_) => here.join("../../../shared/docs/src"),
    }
    .join("src");

    if tree.exists() {
        fs::remove_dir_all(&tree).unwrap();
    }
    for file in GIVEN {
        copy(&given, &tree, file);
    }
    for file in STANDINS {
        copy(&here.join("standins"), &tree, file);
    }

    fs::write(
        tree.join("modules.rs"),
        "pub mod component;\npub mod entity;\npub mod query;\npub mod world;\n",
    )
    .unwrap();
    fs::write(tree.join("tuples.rs"), tuples()).unwrap();
}

/// The lists of kinds for which the harness uses the library's tuples: every list of up to three of the kinds 0 to
/// 5 in any order, every rising list of more of them, and 0 to n - 1 for each n that is left.
fn lists() -> Vec<Vec<u8>> {
    let mut lists: Vec<Vec<u8>> = vec![];
    for a in 0..6 {
        lists.push(vec![a]);
        for b in (0..6).filter(|&b| b != a) {
            lists.push(vec![a, b]);
            for c in (0..6).filter(|&c| c != a && c != b) {
                lists.push(vec![a, b, c]);
            }
        }
    }
    for mask in 0..64u8 {
        if mask.count_ones() > 3 {
            lists.push((0..6).filter(|kind| mask >> kind & 1 == 1).collect());
        }
    }
    for n in 7..=16 {
        lists.push((0..n).collect());
    }
    lists
}

/// Code that picks the tuple of a list of kinds, and calls the library with it. A value has `D` words, at either width.
fn tuples() -> String {
    let lists = lists();
    let mut code = String::new();

    let arms = |code: &mut String, name: &str, arm: &dyn Fn(&[u8]) -> String| {
        code.push_str(name);
        code.push_str("    match kinds {\n");
        for list in &lists {
            code.push_str(&format!("        {list:?} => {},\n", arm(list)));
        }
        code.push_str("        _ => None,\n    }\n}\n\n");
    };
    let types = |list: &[u8]| -> String { list.iter().map(|kind| format!("Comp<{kind}, D>,")).collect() };
    let values = |list: &[u8]| -> String {
        (0..list.len())
            .map(|i| format!("Comp::<{}, D>(values[{i}]),", list[i]))
            .collect()
    };
    let told = |list: &[u8]| -> String {
        (0..list.len())
            .map(|i| format!("told(removed.{i}.map(|comp| comp.0)); "))
            .collect()
    };

    arms(
        &mut code,
        "pub fn create<const D: usize>(world: &mut World, kinds: &[u8], values: &[Value<D>]) -> Option<Entity> {\n",
        &|list| format!("Some(world.create(({})))", values(list)),
    );
    arms(
        &mut code,
        "pub fn extend<const D: usize>(world: &mut World, kinds: &[u8], values: &[Value<D>], count: usize) -> Option<usize> {\n",
        &|list| {
            let values = values(list);
            format!("Some(world.extend(iter::repeat(({values})).take(count)).len())")
        },
    );
    arms(
        &mut code,
        "pub fn insert<const D: usize>(world: &mut World, entity: Entity, kinds: &[u8], values: &[Value<D>]) -> Option<bool> {\n",
        &|list| format!("Some(world.insert(entity, ({})))", values(list)),
    );
    arms(
        &mut code,
        "pub fn remove<const D: usize>(world: &mut World, entity: Entity, kinds: &[u8], told: &mut dyn FnMut(Option<Value<D>>)) -> Option<()> {\n",
        &|list| {
            format!(
                "{{ let removed = world.remove::<({})>(entity); {}Some(()) }}",
                types(list),
                told(list)
            )
        },
    );
    arms(
        &mut code,
        "pub fn delete<const D: usize>(world: &mut World, entity: Entity, kinds: &[u8]) -> Option<()> {\n",
        &|list| format!("Some(world.delete::<({})>(entity))", types(list)),
    );

    code.push_str(&ranges());
    code
}

/// Code that asks the library's own query for the rows of every list of the kinds 0 to 3, with every list of them excluded.
fn ranges() -> String {
    let lists: Vec<Vec<u8>> = (0..16u8)
        .map(|mask| (0..4).filter(|kind| mask >> kind & 1 == 1).collect())
        .collect();
    let parts = |list: &[u8]| -> String { list.iter().map(|kind| format!("&Comp<{kind}, D>,")).collect() };

    let mut code = String::from(
        "pub fn slice<const D: usize>(world: &World, include: &[u8], exclude: &[u8]) -> Option<Option<(usize, usize)>> {\n    \
         match (include, exclude) {\n",
    );
    for include in lists.iter().filter(|list| !list.is_empty()) {
        for exclude in &lists {
            let filter = match exclude.is_empty() {
                true => String::new(),
                false => format!(".exclude::<({})>()", parts(exclude)),
            };
            code.push_str(&format!(
                "        ({include:?}, {exclude:?}) => Some(world.query_all::<({})>(){filter}.slice()\
                 .map(|rows| place(world, rows.0))),\n",
                parts(include),
            ));
        }
    }
    code.push_str("        _ => None,\n    }\n}\n");
    code
}

fn copy(from: &Path, to: &Path, file: &str) {
    let (source, target) = (from.join(file), to.join(file));
    println!("cargo:rerun-if-changed={}", source.display());
    fs::create_dir_all(target.parent().unwrap()).unwrap();
    let bytes = fs::read(&source).unwrap_or_else(|e| {
        panic!(
            "{}: {e} (set SPARSEY_SRC to the folder with src/component)",
            source.display()
        )
    });
    fs::write(&target, bytes).unwrap();
}
