// A child module of codegen.rs (see build): reads a sheet of document 01,
// builds the syntax tree, runs the functions that its paragraph 'Reference'
// names and prints the listing. Every printed value is taken from the tables
// of CodeGen, but every NaN is printed as 7FF8000000000000; the orders that a
// HashMap loses (records, constants) come from the sheet. The sheet must pass
// checks 1 to 7; the driver panics on others.
//
//   harness [--mp] [--ptr KIND] < SHEET
//   harness [--mp] [--ptr KIND] --batch < FRAMES
//
// The answer is the listing, or `no,NUMBER,LINE`: an error of the Rust is 9,
// 10 or 11, and a literal that the Rust makes longer than 1,024 is 12.
// --mp     adds a line `mp,N`, the end of allocation
// --ptr    the type that stands for `ty,ptr` ('every other type'): ref (as
//          without the option), named, list, chan, func or module; the
//          listing does not depend on it
// --batch  a frame is a length in 4 bytes, big-endian, and a sheet; answers
//          have the same frames; a sheet that panics is answered `panic`

use super::*;
use std::io::{Read, Write};

/// Longest literal that document 01 accepts (refusal 12).
const LITERAL_MAX: i32 = 1024;

struct Sheet {
    lines: Vec<Vec<String>>,
    /// What stands for `ty,ptr`.
    other: Type,
}

fn span() -> Span {
    Span::default()
}

impl Sheet {
    fn parse(bytes: &[u8], ptr: &str) -> Sheet {
        let text = std::str::from_utf8(bytes).expect("ASCII");
        assert!(text.is_empty() || text.ends_with('\n'), "check 3");
        Sheet {
            lines: text
                .lines()
                .map(|l| l.split(',').map(str::to_string).collect())
                .collect(),
            other: other_type(ptr),
        }
    }

    fn line(&self, r: &str) -> &[String] {
        let n: usize = r.parse().expect("reference");
        &self.lines[n - 1]
    }

    fn ty(&self, r: &str) -> Type {
        let l = self.line(r);
        assert_eq!(l[0], "ty");
        match l[1].as_str() {
            "array" => Type::Array(Box::new(self.ty(&l[2]))),
            "tuple" => Type::Tuple(l[3..].iter().map(|r| self.ty(r)).collect()),
            "ptr" => self.other.clone(),
            name => Type::Basic(basic(name)),
        }
    }

    fn optional_ty(&self, r: &str) -> Option<Type> {
        (r != "0").then(|| self.ty(r))
    }

    fn ex(&self, r: &str) -> Expr {
        let l = self.line(r);
        assert_eq!(l[0], "ex");
        let boxed = |r: &String| Box::new(self.ex(r));
        match l[1].as_str() {
            "int" => Expr::IntLit(l[2].parse().expect("i64"), span()),
            "real" => {
                let bits = u64::from_str_radix(&l[2], 16).expect("hex");
                Expr::RealLit(f64::from_bits(bits), span())
            }
            "str" => Expr::StringLit(String::from_utf8(unhex(&l[2])).expect("UTF-8"), span()),
            "id" => Expr::Ident(l[2].clone(), span()),
            "qual" => Expr::ModQual(boxed(&l[2]), l[3].clone(), span()),
            "un" => {
                let ops = [UnaryOp::Neg, UnaryOp::Not, UnaryOp::BitNot, UnaryOp::Ref];
                Expr::Unary(ops[index(&l[2])], boxed(&l[3]), span())
            }
            "bin" => Expr::Binary(
                boxed(&l[3]),
                BINARY[index(&l[2])],
                boxed(&l[4]),
                span(),
            ),
            "cast" => Expr::Cast(Box::new(self.ty(&l[2])), boxed(&l[3]), span()),
            "len" => Expr::Len(boxed(&l[2]), span()),
            "alloc" => Expr::ArrayAlloc(boxed(&l[2]), Box::new(self.ty(&l[3])), span()),
            "lit" => Expr::ArrayLit(
                (l[2] != "0").then(|| boxed(&l[2])),
                l[5..].iter().map(|r| self.el(r)).collect(),
                self.optional_ty(&l[3]).map(Box::new),
                span(),
            ),
            // Any expression that has no folding of its own.
            "other" => Expr::Nil(span()),
            form => panic!("ex,{form}"),
        }
    }

    fn el(&self, r: &str) -> ArrayElem {
        let l = self.line(r);
        assert_eq!(l[0], "el");
        let index = match l[1].as_str() {
            "next" => None,
            "star" => Some(ArrayIndex::Wildcard),
            "at" => Some(ArrayIndex::Selectors(
                l[4..].iter().map(|r| self.se(r)).collect(),
            )),
            form => panic!("el,{form}"),
        };
        ArrayElem {
            index,
            value: self.ex(&l[2]),
        }
    }

    fn se(&self, r: &str) -> (Expr, Option<Expr>) {
        let l = self.line(r);
        assert_eq!(l[0], "se");
        (self.ex(&l[1]), (l[2] != "0").then(|| self.ex(&l[2])))
    }

    fn fd(&self, r: &str) -> VarDecl {
        let l = self.line(r);
        assert_eq!(l[0], "fd");
        VarDecl {
            names: l[3..].to_vec(),
            ty: self.optional_ty(&l[1]),
            init: None,
            span: span(),
        }
    }

    fn pc(&self, r: &str) -> PickCase {
        let l = self.line(r);
        assert_eq!(l[0], "pc");
        let tags = index(&l[1]);
        PickCase {
            tags: l[2..2 + tags].to_vec(),
            fields: l[3 + tags..].iter().map(|r| self.fd(r)).collect(),
        }
    }

    fn adt(&self, l: &[String]) -> AdtDecl {
        let fields = index(&l[2]);
        AdtDecl {
            name: l[1].clone(),
            members: l[3..3 + fields]
                .iter()
                .map(|r| AdtMember::Field(self.fd(r)))
                .collect(),
            pick: (l[0] == "pick").then(|| l[4 + fields..].iter().map(|r| self.pc(r)).collect()),
            span: span(),
        }
    }

    fn con(&self, l: &[String]) -> ConstDecl {
        ConstDecl {
            name: l[1].clone(),
            ty: None,
            value: self.ex(&l[4]),
            span: Span {
                line: l[2].parse().expect("LINE"),
                col: l[3].parse().expect("COL"),
            },
        }
    }

    /// The span carries the line's number in the sheet, for refusals.
    fn var(&self, number: usize, l: &[String]) -> VarDecl {
        VarDecl {
            names: l[4..].to_vec(),
            ty: Some(self.ty(&l[1])),
            init: (l[2] != "0").then(|| self.ex(&l[2])),
            span: Span {
                line: number as u32,
                col: 0,
            },
        }
    }

    /// The sheet as a source file.
    fn source_file(&self) -> SourceFile {
        let mut file = SourceFile {
            implement: Vec::new(),
            includes: Vec::new(),
            decls: Vec::new(),
        };
        let mut open: Option<ModuleDecl> = None;
        for (i, l) in self.lines.iter().enumerate() {
            match (l[0].as_str(), &mut open) {
                ("impl", _) => file.implement.push(l[1].clone()),
                ("mod", None) => {
                    open = Some(ModuleDecl {
                        name: l[1].clone(),
                        members: Vec::new(),
                        span: span(),
                    });
                }
                ("end", Some(_)) => file.decls.push(Decl::Module(open.take().unwrap())),
                ("mod" | "end", _) => panic!("check 6"),
                ("adt" | "pick", None) => file.decls.push(Decl::Adt(self.adt(l))),
                ("adt" | "pick", Some(m)) => m.members.push(ModuleMember::Adt(self.adt(l))),
                ("con", None) => file.decls.push(Decl::Const(self.con(l))),
                ("con", Some(m)) => m.members.push(ModuleMember::Const(self.con(l))),
                ("var", None) => file.decls.push(Decl::Var(self.var(i + 1, l))),
                ("var", Some(m)) => m.members.push(ModuleMember::Var(self.var(i + 1, l))),
                _ => {}
            }
        }
        assert!(open.is_none(), "check 6");
        file
    }

    fn need_key(&self, l: &[String]) -> TypeKey {
        match l[1].as_str() {
            "adt" => TypeKey::Adt(l[2].clone()),
            "elem" => TypeKey::Elem(ElemKind::of(&Type::Basic(basic(&l[2])))),
            "block" => TypeKey::Block {
                size: l[2].parse().expect("SIZE"),
                ptr_offsets: l[4..].iter().map(|o| o.parse().expect("offset")).collect(),
            },
            "opaque" => TypeKey::OpaqueRecord,
            form => panic!("need,{form}"),
        }
    }
}

const BINARY: [BinOp; 19] = [
    BinOp::Add,
    BinOp::Sub,
    BinOp::Mul,
    BinOp::Div,
    BinOp::Mod,
    BinOp::Power,
    BinOp::And,
    BinOp::Or,
    BinOp::Xor,
    BinOp::Lshift,
    BinOp::Rshift,
    BinOp::Eq,
    BinOp::Neq,
    BinOp::Lt,
    BinOp::Gt,
    BinOp::Leq,
    BinOp::Geq,
    BinOp::LogAnd,
    BinOp::LogOr,
];

fn basic(name: &str) -> BasicType {
    match name {
        "int" => BasicType::Int,
        "byte" => BasicType::Byte,
        "big" => BasicType::Big,
        "real" => BasicType::Real,
        "string" => BasicType::String,
        form => panic!("ty,{form}"),
    }
}

fn other_type(kind: &str) -> Type {
    let named = Type::Named(QualName {
        qualifier: None,
        name: "Other".to_string(),
    });
    match kind {
        "ref" => Type::Ref(Box::new(named)),
        "named" => named,
        "list" => Type::List(Box::new(Type::Basic(BasicType::Big))),
        "chan" => Type::Chan(Box::new(Type::Basic(BasicType::Real))),
        "func" => Type::Func(Box::new(FuncSig {
            name: String::new(),
            params: Vec::new(),
            ret: None,
            span: span(),
        })),
        "module" => Type::Module(Vec::new()),
        _ => panic!("--ptr {kind}"),
    }
}

fn index(s: &str) -> usize {
    s.parse().expect("count")
}

fn unhex(s: &str) -> Vec<u8> {
    assert!(s.len() % 2 == 0);
    (0..s.len() / 2)
        .map(|i| u8::from_str_radix(&s[2 * i..2 * i + 2], 16).expect("hex"))
        .collect()
}

fn hex(bytes: &[u8]) -> String {
    bytes.iter().map(|b| format!("{b:02X}")).collect()
}

/// The bits of a real; document 01 (added): a NaN is 7FF8000000000000.
fn real(v: f64) -> String {
    let bits = if v.is_nan() { 0x7FF8_0000_0000_0000 } else { v.to_bits() };
    format!("{bits:016X}")
}

fn remember(keys: &mut Vec<String>, key: String) {
    if !keys.contains(&key) {
        keys.push(key);
    }
}

/// Record keys by first recording: a record, then its tags.
fn record_order(file: &SourceFile) -> Vec<String> {
    let mut keys = Vec::new();
    let mut record = |adt: &AdtDecl| {
        remember(&mut keys, adt.name.clone());
        for case in adt.pick.iter().flatten() {
            for tag in &case.tags {
                remember(&mut keys, format!("{}.{tag}", adt.name));
            }
        }
    };
    for decl in &file.decls {
        match decl {
            Decl::Adt(adt) => record(adt),
            Decl::Module(m) => {
                for member in &m.members {
                    if let ModuleMember::Adt(adt) = member {
                        record(adt);
                    }
                }
            }
            _ => {}
        }
    }
    keys
}

/// Qualified and plain constant names by first insertion.
fn constant_order(file: &SourceFile) -> (Vec<String>, Vec<String>) {
    let (mut qualified, mut plain) = (Vec::new(), Vec::new());
    for decl in &file.decls {
        let Decl::Module(m) = decl else { continue };
        for member in &m.members {
            let ModuleMember::Const(c) = member else { continue };
            remember(&mut qualified, format!("{}->{}", m.name, c.name));
            if file.implement.first() == Some(&m.name) {
                remember(&mut plain, c.name.clone());
            }
        }
    }
    for decl in &file.decls {
        if let Decl::Const(c) = decl {
            remember(&mut plain, c.name.clone());
        }
    }
    (qualified, plain)
}

fn joined<T: ToString>(values: &[T]) -> String {
    values.iter().map(T::to_string).collect::<Vec<_>>().join(",")
}

/// The `var` declarations in the order of work, each as a file of its own.
fn single_globals(file: &SourceFile) -> Vec<(u32, SourceFile)> {
    let alone = |decl: Decl| SourceFile {
        implement: file.implement.clone(),
        includes: Vec::new(),
        decls: vec![decl],
    };
    let mut out = Vec::new();
    for decl in &file.decls {
        match decl {
            Decl::Var(v) => out.push((v.span.line, alone(decl.clone()))),
            Decl::Module(m) => {
                for member in &m.members {
                    let ModuleMember::Var(v) = member else { continue };
                    let group = ModuleDecl {
                        name: m.name.clone(),
                        members: vec![member.clone()],
                        span: span(),
                    };
                    out.push((v.span.line, alone(Decl::Module(group))));
                }
            }
            _ => {}
        }
    }
    out
}

/// Only a literal with elements is followed by `SetArray`; an `alloc` may be
/// of any length.
fn has_long_literal(items: &[DataItem]) -> bool {
    items.windows(2).any(|pair| {
        matches!(pair, [DataItem::Array { length, .. }, DataItem::SetArray { .. }]
            if *length > LITERAL_MAX)
    })
}

/// Finds the `var` line of a refusal: `collect_globals` takes the declarations
/// one after the other, so it may be called once for each of them.
fn refusal(file: &SourceFile) -> String {
    let mut cg = CodeGen::new();
    cg.collect_adts(file);
    cg.collect_consts(file);
    for (line, one) in single_globals(file) {
        let before = cg.data.len();
        if let Err(text) = cg.collect_globals(&one) {
            let number = match text.as_str() {
                "array size is out of range" => 9,
                "array size is negative" => 10,
                "array initialiser index is outside the array" => 11,
                _ => panic!("{text}"),
            };
            return format!("no,{number},{line}\n");
        }
        if has_long_literal(&cg.data[before..]) {
            return format!("no,12,{line}\n");
        }
    }
    panic!("no declaration is refused on its own");
}

pub fn answer(bytes: &[u8], ptr: &str, with_end: bool) -> String {
    let sheet = Sheet::parse(bytes, ptr);
    let file = sheet.source_file();
    let mut cg = CodeGen::new();

    cg.collect_adts(&file);
    cg.collect_consts(&file);
    if cg.collect_globals(&file).is_err() || has_long_literal(&cg.data) {
        return refusal(&file);
    }
    let mut needs = 0;
    for l in &sheet.lines {
        match l[0].as_str() {
            "frame" => cg.func_frames.push((
                l[1].parse().expect("SIZE"),
                l[3..].iter().map(|o| o.parse().expect("offset")).collect(),
            )),
            "need" => {
                cg.emit(Opcode::New, op_unused(), mid_unused(), op_unused());
                let key = sheet.need_key(l);
                cg.need_type(needs, TypeOperand::Source, key);
                needs += 1;
            }
            _ => {}
        }
    }
    cg.build_types();

    let mut out = String::new();
    let keys = record_order(&file);
    assert_eq!(keys.len(), cg.adt_shapes.len());
    assert_eq!(keys.len(), cg.adt_layouts.len());
    for key in &keys {
        let (tag, group) = match cg.adt_variants.get(key) {
            Some((tag, group)) => (*tag, *group as i64),
            None => (-1, -1),
        };
        let shape = &cg.adt_shapes[key];
        let map = pointer_map_for(shape.size, &shape.ptr_offsets);
        out += &format!("rec,{key},{tag},{group},{},{}\n", shape.size, hex(&map.bytes));
        for (name, ty, off) in &cg.adt_layouts[key] {
            out += &format!("fld,{name},{off},{}\n", type_size_align(ty).0);
        }
    }
    let (qualified, plain) = constant_order(&file);
    assert_eq!(qualified.len(), cg.qualified_consts.len());
    assert_eq!(plain.len(), cg.module_consts.len());
    let values = qualified
        .iter()
        .map(|k| (k, &cg.qualified_consts[k]))
        .chain(plain.iter().map(|k| (k, &cg.module_consts[k])));
    for (name, value) in values {
        out += &match value {
            Ok(ConstVal::Int(v)) => format!("con,{name},i,{v}\n"),
            Ok(ConstVal::Real(v)) => format!("con,{name},r,{}\n", real(*v)),
            Ok(ConstVal::Str(s)) => format!("con,{name},s,{}\n", hex(s.as_bytes())),
            Err(_) => format!("con,{name},x\n"),
        };
    }
    for (name, off, ty, kind) in &cg.globals {
        let pointer = if *ty == ValType::Word { 0 } else { 1 };
        out += &format!("glo,{name},{off},{},{pointer}\n", kind.byte_size());
    }
    for (name, _) in &cg.pending_global_inits {
        out += &format!("pend,{name}\n");
    }
    for item in &cg.data {
        out += &match item {
            DataItem::Bytes { offset, values } => {
                format!("dat,bytes,{offset},{},{}\n", values.len(), joined(values))
            }
            DataItem::Words { offset, values } => {
                format!("dat,words,{offset},{},{}\n", values.len(), joined(values))
            }
            DataItem::Bigs { offset, values } => {
                format!("dat,bigs,{offset},{},{}\n", values.len(), joined(values))
            }
            DataItem::Reals { offset, values } => {
                let bits: Vec<String> = values.iter().map(|v| real(*v)).collect();
                format!("dat,reals,{offset},{},{}\n", values.len(), bits.join(","))
            }
            DataItem::String { offset, value } => {
                format!("dat,str,{offset},{}\n", hex(value.as_bytes()))
            }
            DataItem::Array {
                offset,
                element_type,
                length,
            } => format!("dat,array,{offset},{element_type},{length}\n"),
            DataItem::SetArray { offset, index } => format!("dat,set,{offset},{index}\n"),
            DataItem::RestoreBase => "dat,back\n".to_string(),
        };
    }
    for t in &cg.types {
        let map = hex(&t.pointer_map.bytes);
        out += &format!("typ,{},{},{},{map}\n", t.id, t.size, t.pointer_count);
    }
    for at in 0..needs {
        out += &format!("use,{}\n", cg.code[at].source.register1);
    }
    if with_end {
        out += &format!("mp,{}\n", cg.mp_size);
    }
    out
}

pub fn main() {
    let (mut batch, mut with_end, mut ptr) = (false, false, "ref".to_string());
    let mut args = std::env::args().skip(1);
    while let Some(arg) = args.next() {
        match arg.as_str() {
            "--batch" => batch = true,
            "--mp" => with_end = true,
            "--ptr" => ptr = args.next().expect("--ptr KIND"),
            _ => panic!("{arg}"),
        }
    }
    let (mut stdin, mut stdout) = (std::io::stdin().lock(), std::io::stdout().lock());
    if !batch {
        let mut sheet = Vec::new();
        stdin.read_to_end(&mut sheet).expect("stdin");
        let text = answer(&sheet, &ptr, with_end);
        stdout.write_all(text.as_bytes()).expect("stdout");
        return;
    }
    std::panic::set_hook(Box::new(|_| {}));
    let mut length = [0; 4];
    while stdin.read_exact(&mut length).is_ok() {
        let mut sheet = vec![0; u32::from_be_bytes(length) as usize];
        stdin.read_exact(&mut sheet).expect("stdin");
        let text = std::panic::catch_unwind(|| answer(&sheet, &ptr, with_end))
            .unwrap_or("panic\n".to_string());
        stdout.write_all(&(text.len() as u32).to_be_bytes()).expect("stdout");
        stdout.write_all(text.as_bytes()).expect("stdout");
        stdout.flush().expect("stdout");
    }
}
