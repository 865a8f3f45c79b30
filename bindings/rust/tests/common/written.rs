//! Writes typed answers as the JSON from which they were read.

use pethuvazh::bounds::*;
use pethuvazh::diagnostics::*;
use pethuvazh::info::*;
use pethuvazh::refusal::*;
use pethuvazh::resources::*;
use pethuvazh::*;

/// A value that is written as JSON.
pub trait Written {
    fn written(&self) -> String;
}

macro_rules! as_displayed {
    ($($type:ty)+) => { $( impl Written for $type { fn written(&self) -> String { self.to_string() } } )+ };
}
as_displayed!(u8 u16 u32 u64 usize bool);

/// Writes a unit variant as its name.
macro_rules! as_named {
    ($($type:ty)+) => { $( impl Written for $type { fn written(&self) -> String { format!("\"{self:?}\"") } } )+ };
}
as_named!(LayoutErrorInner ScalarKind VectorSize CooperativeSize CooperativeRole ModuleFault BoundsCheckPolicy);

macro_rules! as_lower_case {
    ($($type:ty)+) => { $( impl Written for $type { fn written(&self) -> String { format!("{self:?}").to_lowercase().written() } } )+ };
}
as_lower_case!(ShaderStage Severity);

impl Written for str {
    fn written(&self) -> String {
        let mut text = String::from("\"");
        for it in self.chars() {
            match it {
                '"' | '\\' => text.extend(['\\', it]),
                '\n' => text += "\\n",
                '\r' => text += "\\r",
                '\t' => text += "\\t",
                '\u{8}' => text += "\\b",
                '\u{c}' => text += "\\f",
                '\0'..' ' => text += &format!("\\u{:04x}", u32::from(it)),
                _ => text.push(it),
            }
        }
        text + "\""
    }
}

impl Written for String {
    fn written(&self) -> String {
        self.as_str().written()
    }
}

impl<T: Written> Written for Option<T> {
    fn written(&self) -> String {
        self.as_ref().map_or("null".into(), T::written)
    }
}

impl<T: Written> Written for [T] {
    fn written(&self) -> String {
        let items: Vec<_> = self.iter().map(T::written).collect();
        format!("[{}]", items.join(","))
    }
}

impl<T: Written> Written for Vec<T> {
    fn written(&self) -> String {
        self.as_slice().written()
    }
}

impl<T: Written, const N: usize> Written for [T; N] {
    fn written(&self) -> String {
        self.as_slice().written()
    }
}

/// Writes an object of members, some of which may be absent.
fn object<const N: usize>(members: [Option<(&str, String)>; N]) -> String {
    let members: Vec<_> = members
        .into_iter()
        .flatten()
        .map(|(name, value)| format!("\"{name}\":{value}"))
        .collect();
    format!("{{{}}}", members.join(","))
}

fn member<'a>(name: &'a str, value: &impl Written) -> Option<(&'a str, String)> {
    Some((name, value.written()))
}

fn optional<'a>(name: &'a str, value: &Option<impl Written>) -> Option<(&'a str, String)> {
    value.as_ref().and_then(|it| member(name, it))
}

fn variant(name: &str, value: &impl Written) -> String {
    object([member(name, value)])
}

/// An object that is written already.
struct Raw(String);

impl Written for Raw {
    fn written(&self) -> String {
        self.0.clone()
    }
}

macro_rules! objects {
    ($($type:ident { $($field:ident $name:literal),+ })+) => { $(
        impl Written for $type {
            fn written(&self) -> String {
                object([$(member($name, &self.$field)),+])
            }
        }
    )+ };
}
objects! {
    Layout { size "size", alignment "alignment" }
    LayoutError { ty "ty", inner "inner" }
    ModuleInfo { functions "functions", entry_points "entry_points", const_expression_types "const_expression_types" }
    FunctionInfo { available_stages "available_stages", uniformity "uniformity", may_kill "may_kill", sampling_set "sampling_set",
        global_uses "global_uses", expressions "expressions", sampling "sampling", dual_source_blending "dual_source_blending" }
    SamplingKey { image "image", sampler "sampler" }
    Sampling { image "image", sampler "sampler" }
    ExpressionInfo { uniformity "uniformity", ref_count "ref_count", ty "ty" }
    Scalar { kind "kind", width "width" }
    Refusal { place "place", cause "cause" }
    FunctionBounds { accesses "accesses", checked_indexes "checked_indexes", oob_local_types "oob_local_types" }
    Access { access "access", base "base", index "index", length "length", policy "policy" }
    Resources { types "types", globals "globals", overrides "overrides", entry_points "entry_points", unused "unused" }
    Type { notation "type", size "size", alignment "alignment", stride "stride", members "members" }
    Member { name "name", ty "ty", notation "type", offset "offset" }
    Global { name "name", group "group", binding "binding", space "space", access "access", ty "ty", notation "type" }
    Override { name "name", id "id", ty "ty", notation "type", default "default" }
    EntryPoint { name "name", stage "stage", workgroup_size "workgroup_size", workgroup_overrides "workgroup_overrides", uses "uses",
        sampled "sampled", inputs "inputs", outputs "outputs" }
    Use { global "global", read "read", write "write", query "query", atomic "atomic" }
    InputOrOutput { name "name", ty "ty", notation "type", builtin "builtin", location "location", blend_src "blend_src",
        interpolation "interpolation", sampling "sampling" }
    Related { message "message", location "location" }
}

impl Written for pethuvazh::info::Uniformity {
    fn written(&self) -> String {
        let result = member("non_uniform_result", &self.non_uniform_result);
        object([result, member("requirements", &self.requirements)])
    }
}

macro_rules! flags {
    ($($type:ident { $($field:ident $name:literal),+ })+) => { $(
        impl Written for $type {
            fn written(&self) -> String {
                let names: Vec<_> = [$((self.$field, $name)),+].into_iter().filter(|it| it.0).map(|it| it.1).collect();
                names.join(" | ").written()
            }
        }
    )+ };
}
flags! {
    UniformityRequirements { work_group_barrier "WORK_GROUP_BARRIER", derivative "DERIVATIVE", implicit_level "IMPLICIT_LEVEL",
        coop_ops "COOP_OPS" }
    ShaderStages { vertex "VERTEX", fragment "FRAGMENT", compute "COMPUTE", mesh "MESH", task "TASK" }
    GlobalUse { read "READ", write "WRITE", query "QUERY", atomic "ATOMIC" }
    StorageAccess { load "LOAD", store "STORE", atomic "ATOMIC" }
    Capabilities {
        texture_and_sampler_binding_array_non_uniform_indexing "TEXTURE_AND_SAMPLER_BINDING_ARRAY_NON_UNIFORM_INDEXING",
        storage_texture_binding_array_non_uniform_indexing "STORAGE_TEXTURE_BINDING_ARRAY_NON_UNIFORM_INDEXING" }
}

/// Writes enums by a match over their variants. All are non-exhaustive, and a test fails on a variant that it doesn't know.
macro_rules! variants {
    ($($type:ident { $($pattern:pat => $written:expr),+ $(,)? })+) => { $(
        impl Written for $type {
            fn written(&self) -> String {
                use $type::*;
                #[allow(unreachable_patterns)]
                match self {
                    $($pattern => $written,)+
                    it => panic!("{it:?}"),
                }
            }
        }
    )+ };
}
variants! {
    Place {
        ConstExpression(it) => variant("ConstExpression", it),
        Function(it) => variant("Function", it),
        EntryPoint(it) => variant("EntryPoint", it),
    }
    GlobalOrArgument { Global(it) => variant("Global", it), Argument(it) => variant("Argument", it) }
    TypeResolution { Handle(it) => variant("Handle", it), Value(it) => variant("Value", it) }
    GuardedIndex { Known(it) => variant("Known", it), Expression(it) => variant("Expression", it) }
    IndexableLength { Known(it) => variant("Known", it), Dynamic => "Dynamic".written() }
    Bounds {
        Known { functions, entry_points, .. } => object([member("functions", functions), member("entry_points", entry_points)]),
        Override(it) => variant("override", it),
    }
    AddressSpace {
        Storage { access, .. } => variant("Storage", &Raw(variant("access", access))),
        it => format!("\"{it:?}\""),
    }
    TypeInner {
        Scalar(it) => variant("Scalar", it),
        Vector { size, scalar, .. } => variant("Vector", &Raw(object([member("size", size), member("scalar", scalar)]))),
        Matrix { columns, rows, scalar, .. } => {
            variant("Matrix", &Raw(object([member("columns", columns), member("rows", rows), member("scalar", scalar)])))
        },
        CooperativeMatrix { columns, rows, scalar, role, .. } => {
            let sizes = [member("columns", columns), member("rows", rows), member("scalar", scalar), member("role", role)];
            variant("CooperativeMatrix", &Raw(object(sizes)))
        },
        Pointer { base, space, .. } => variant("Pointer", &Raw(object([member("base", base), member("space", space)]))),
        ValuePointer { size, scalar, space, .. } => {
            variant("ValuePointer", &Raw(object([member("size", size), member("scalar", scalar), member("space", space)])))
        },
    }
    UniformityDisruptor {
        Expression(it) => variant("Expression", it),
        it => format!("\"{it:?}\""),
    }
    Cause {
        Expression { handle, error, .. } => variant("Expression", &Raw(object([member("handle", handle), member("error", error)]))),
        NonUniformControlFlow { requirements, expression, disruptor, .. } => {
            let items = [requirements.written(), expression.written(), disruptor.written()];
            variant("NonUniformControlFlow", &items.map(Raw))
        },
        CountFull(it) => variant("CountFull", it),
    }
    ExpressionError {
        ResolveError(it) => variant("ResolveError", it),
        MissingCapabilities(it) => variant("MissingCapabilities", it),
        it => format!("\"{it:?}\""),
    }
    ResolveError {
        OutOfBoundsIndex { expr, index, .. } => {
            variant("OutOfBoundsIndex", &Raw(object([member("expr", expr), member("index", index)])))
        },
        InvalidAccess { expr, indexed, .. } => {
            variant("InvalidAccess", &Raw(object([member("expr", expr), member("indexed", indexed)])))
        },
        InvalidSubAccess { ty, indexed, .. } => {
            variant("InvalidSubAccess", &Raw(object([member("ty", ty), member("indexed", indexed)])))
        },
        InvalidScalar(it) => variant("InvalidScalar", it),
        InvalidVector(it) => variant("InvalidVector", it),
        InvalidPointer(it) => variant("InvalidPointer", it),
        InvalidImage(it) => variant("InvalidImage", it),
        IncompatibleOperands(it) => variant("IncompatibleOperands", it),
        BuiltinArgumentsInvalid(it) => variant("BuiltinArgumentsInvalid", it),
        FunctionArgumentNotFound(it) => variant("FunctionArgumentNotFound", it),
        it => format!("\"{it:?}\""),
    }
}

impl Written for Location {
    fn written(&self) -> String {
        location(
            self,
            optional("pointer", &self.pointer),
            optional("path", &self.path),
        )
    }
}

/// Writes a location with pointer and path in the order that is given.
fn location(
    it: &Location,
    first: Option<(&str, String)>,
    second: Option<(&str, String)>,
) -> String {
    object([
        member("body", &it.body),
        optional("name", &it.name),
        optional("statement", &it.statement),
        optional("expression", &it.expression),
        optional("text", &it.text),
        optional("type", &it.ty),
        first,
        second,
        optional("argument", &it.argument),
        optional("line", &it.line),
        optional("column", &it.column),
        optional("byte", &it.byte),
    ])
}

impl Written for Diagnostic {
    fn written(&self) -> String {
        // In an error of the input, the path stands before the pointer.
        let (pointer, path) = (
            optional("pointer", &self.location.pointer),
            optional("path", &self.location.path),
        );
        let place = match self.code.starts_with('I') {
            true => location(&self.location, path, pointer),
            false => location(&self.location, pointer, path),
        };
        object([
            member("code", &self.code),
            member("name", &self.name),
            member("severity", &self.severity),
            member("message", &self.message),
            member("location", &Raw(place)),
            member("data", &self.data),
            member("related", &self.related),
            member("omitted", &self.omitted),
            member("notes", &self.notes),
            member("help", &self.help),
        ])
    }
}

impl Written for Data {
    fn written(&self) -> String {
        // These two lists are there with the function alone.
        let list = |it: &Vec<String>| self.function.as_ref().map(|_| it.clone());
        object([
            optional("expected", &self.expected),
            optional("found", &self.found),
            optional("index", &self.index),
            optional("list", &self.list),
            optional("length", &self.length),
            optional("given", &self.given),
            optional("wanted", &self.wanted),
            optional("function", &self.function),
            optional("arguments", &list(&self.arguments)),
            optional("argument", &self.argument),
            optional("candidates", &list(&self.candidates)),
        ])
    }
}

impl Written for Report {
    /// Writes the line behind its head, which has version, verdict and diagnostics.
    fn written(&self) -> String {
        let verdict = if self.is_accepted() {
            "accepted"
        } else {
            "refused"
        };
        let head = [
            member("version", &self.version),
            member("verdict", &verdict.to_owned()),
            member("diagnostics", &self.diagnostics),
        ];
        let layouts = |it: &Result<Vec<Layout>, LayoutError>| match it {
            Ok(layouts) => member("layouts", layouts),
            Err(error) => member("layout_error", error),
        };
        let analysis = |it: &Analysis| {
            let lists = [member("layouts", &it.layouts), member("info", &it.info)];
            [
                lists[0].clone(),
                lists[1].clone(),
                optional("bounds", &it.bounds),
                optional("resources", &it.resources),
            ]
        };
        // Whether the rules of WGSL were asked for decides whether an accepted module has this member.
        let is_flow_told = self
            .text
            .contains("\"uniformity_verdict\":{\"accepted\":true}");
        let flow = |members| is_flow_told.then_some(("uniformity_verdict", members));
        let rest = match &self.outcome {
            Outcome::Accepted(it) => {
                let [layouts, info, bounds, resources] = analysis(it);
                [
                    flow(variant("accepted", &true)),
                    layouts,
                    info,
                    bounds,
                    resources,
                ]
            }
            Outcome::NonUniform {
                place,
                analysis: it,
                ..
            } => {
                let [layouts, info, bounds, resources] = analysis(it);
                let verdict = object([member("accepted", &false), member("place", place)]);
                [
                    member("uniformity_verdict", &Raw(verdict)),
                    layouts,
                    info,
                    bounds,
                    resources,
                ]
            }
            Outcome::Refused {
                refusal,
                layouts: it,
                ..
            } => [layouts(it), member("refused", refusal), None, None, None],
            Outcome::NoLayout {
                error,
                info,
                bounds,
                ..
            } => [
                member("layout_error", error),
                member("info", info),
                optional("bounds", bounds),
                None,
                None,
            ],
            Outcome::IllFormed(fault) => [member("fault", fault), None, None, None, None],
            other => panic!("{other:?}"),
        };
        let [version, verdict, diagnostics] = head;
        let [first, second, third, fourth, fifth] = rest;
        object([
            version,
            verdict,
            diagnostics,
            first,
            second,
            third,
            fourth,
            fifth,
        ])
    }
}

impl Written for NotModule {
    fn written(&self) -> String {
        let verdict = member("verdict", &"invalid_input".to_owned());
        let wanted = member("wanted", &self.expected);
        let at = if self.path.is_some() {
            optional("path", &self.path)
        } else {
            optional("byte", &self.position.byte)
        };
        let diagnostics = member("diagnostics", &[Raw(self.diagnostic.written())]);
        object([
            member("version", &"1.0".to_owned()),
            verdict,
            diagnostics,
            member("error", &Raw(object([at, wanted]))),
        ])
    }
}
