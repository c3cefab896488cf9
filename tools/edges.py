"""Sheets made for a purpose: document 01's rows and slips, every operator and
cast, every reference, both sides of each refusal, and two faults in one sheet.

    edges() -> a list of (name, sheet, made)

`made` is the answer where it is known by construction: (number, line), or
(listing, end of allocation); otherwise None, and tools/answer asks. It is
given for every refusal, and wherever the Rust cannot be asked: strings that
might be too long, spans over 65,536 indices, and tuples nested so deep that
the Rust takes too long.
"""
from sheets import INTS, REALS, Build, hex_text

OPAQUE = "typ,0,48,12,FFF0/typ,1,48,12,FFF0/"
PENDING = ("glo,x,0,4,1/pend,x/" + OPAQUE, 4)


def lf(text):
    return text.replace("/", "\n").encode()


# ---- document 01's rows, edges and slips, and the decided readings

ROWS = {
    "round": "impl,Round/ty,string/ty,big/fd,2,1,tag/fd,3,1,at/adt,Scan,2,4,5/ex,int,3/con,KEEP,1,1,7/ex,id,KEEP/"
    "ex,int,7/el,next,10/ty,int/ex,lit,9,12,1,11/ty,int/ty,array,14/var,15,13,1,a/need,adt,Scan/",
    "empty": "",
    "div-zero": "ex,int,7/ex,int,0/ex,bin,3,1,2/con,A,1,1,3/",
    "div-negative": "ex,int,-7/ex,int,2/ex,bin,3,1,2/con,A,1,1,3/",
    "mod-negative": "ex,int,-7/ex,int,2/ex,bin,4,1,2/con,A,1,1,3/",
    "shl-minus-one": "ex,int,1/ex,int,-1/ex,bin,9,1,2/con,A,1,1,3/",
    "shr-sign": "ex,int,-8/ex,int,1/ex,bin,10,1,2/con,A,1,1,3/",
    "to-real": "ex,int,9007199254740993/ty,real/ex,cast,2,1/con,A,1,1,3/",
    "to-int": "ex,real,C004000000000000/ty,int/ex,cast,2,1/con,A,1,1,3/",
    "tuple-fields": "ty,big/ty,int/ty,tuple,2,1,2/fd,3,2,a,b/adt,T,1,4/",
    "empty-pick": "pick,T,0,0/",
    "map-32": "need,block,36,1,32/frame,36,1,32/",
    "map-33": "need,block,36,1,33/frame,36,1,33/",
    "slip-byte-300": "ex,int,300/ty,byte/ex,cast,2,1/con,A,1,1,3/ex,int,300/ty,byte/ex,cast,6,5/ty,byte/var,8,7,1,b/",
    "slip-order": "ex,int,5/con,A,1,1,1/mod,M/ex,id,A/con,B,1,1,4/end/ex,id,M/ex,qual,7,B/con,C,1,1,8/",
    "slip-module-names": "impl,Main/mod,M/ex,int,5/con,A,1,1,3/ex,id,A/con,B,1,1,5/ex,id,M/ex,qual,7,A/con,C,1,1,8/end/"
    "mod,Main/ex,int,6/con,A2,1,1,12/ex,id,A2/con,B2,1,1,14/end/",
    "big-after-int": "ty,int/fd,1,1,a/ty,big/fd,3,1,b/ty,int/fd,5,1,c/adt,T,3,2,4,6/",
    "nameless-aligns": "ty,int/fd,1,1,a/ty,big/fd,3,0/adt,T,2,2,4/",
    "nameless-variant": "ty,int/fd,1,1,a/ty,big/fd,3,0/ty,int/fd,5,1,b/pc,1,x,1,6/pc,1,y,0/pick,T,2,2,4,2,7,8/",
    "untyped": "fd,0,2,a,b/ty,int/fd,2,1,c/adt,T,2,1,3/",
    "tuple-empty": "ty,tuple,0/fd,1,2,a,b/adt,T,1,2/",
    "tuple-nested": "ty,big/ty,int/ty,tuple,2,1,2/ty,big/ty,int/ty,tuple,2,4,5/ty,tuple,2,3,6/fd,7,2,a,b/adt,T,1,8/",
    "tuple-pointer": "ty,int/fd,1,1,a/ty,int/ty,string/ty,tuple,2,3,4/fd,5,1,b/adt,T,2,2,6/",
    "tags-repeat": "pc,3,x,x,y,0/pc,0,0/pc,1,x,0/pick,T,0,3,1,2,3/need,adt,T.x/need,adt,T.z/",
    "redeclared": "pc,1,x,0/ty,big/fd,2,1,a/pc,1,y,1,3/pick,T,0,2,1,4/ty,int/fd,6,1,b/adt,T,1,7/adt,U,0/"
    "ty,string/fd,10,1,c/pc,1,y,1,11/pick,T,0,1,12/need,adt,T.x/",
    "records-in-modules": "mod,M/adt,T,0/end/mod,N/ty,big/fd,5,1,a/adt,T,1,6/end/need,adt,T/",
    "variant-sizes": "ty,string/fd,1,1,a/pc,1,x,1,2/ty,big/fd,4,1,b/pc,1,y,1,5/pick,T,0,2,3,6/"
    "need,adt,T/need,adt,T.x/need,adt,T.y/need,adt,T.z/need,adt,y/",
    "iota-groups": "ex,id,iota/con,A,1,1,1/ex,id,iota/con,B,1,1,3/ex,id,iota/con,C,1,2,5/ex,other/con,D,1,2,7/"
    "ex,id,iota/con,E,1,2,9/ex,id,iota/con,F,1,1,11/ex,id,iota/con,G,2,1,13/",
    "iota-passes": "ex,id,iota/con,A,1,1,1/mod,M/ex,id,iota/con,B,1,1,4/end/ex,id,iota/con,C,1,1,7/"
    "mod,M/ex,id,iota/con,D,1,1,10/end/ex,id,iota/con,E,1,1,13/",
    "iota-name": "ex,int,5/con,iota,1,1,1/ex,id,iota/con,A,1,1,3/mod,iota/ex,int,6/con,iota,1,1,6/end/"
    "ex,id,iota/ex,qual,9,iota/con,B,2,1,10/ex,id,iota/ty,int/var,13,12,1,x/",
    "qual-odd": "ex,int,1/ex,qual,1,A/con,A,1,1,2/ex,id,M/ex,qual,4,A/ex,qual,5,A/con,B,1,1,6/",
    "redeclared-con": "ex,int,1/con,A,1,1,1/ex,id,A/ex,int,1/ex,bin,0,3,4/con,A,1,1,5/ex,other/con,A,1,1,7/ex,id,A/con,B,1,1,9/",
    "impl-names": "impl,M/mod,M/ex,int,5/con,A,1,1,3/end/mod,N/ex,id,A/con,B,1,1,7/end/ex,id,B/con,C,1,1,10/",
    "nan": "ex,real,0000000000000000/ex,real,0000000000000000/ex,bin,3,1,2/ex,un,0,3/ty,real/var,5,4,1,a/",
    "var-forward": "ex,id,A/ty,int/var,2,1,1,x/ex,int,9/con,A,1,1,4/ex,id,x/con,B,1,1,6/",
    "var-kinds": "ex,real,3FF8000000000000/ty,int/var,2,1,1,x/ty,int/var,4,0,1,y/ex,int,5/ty,real/var,7,6,1,z/"
    "ex,str,61/ty,big/var,10,9,1,s/ex,int,5/ty,string/var,13,12,1,t/ex,int,4294967301/ty,ptr/var,16,15,1,u/"
    "ex,int,4294967301/ty,big/var,19,18,1,v/ex,real,3FF8000000000000/ty,ptr/var,22,21,1,w/",
    "var-again": "ex,int,1/ty,int/var,2,1,1,a/ex,int,2/ty,big/var,5,4,1,a/",
    "var-names": "ex,int,1/ty,big/var,2,1,4,a,nil,b,a/ex,int,2/ty,int/var,5,4,0/ex,str,61/ty,string/var,8,7,2,c,d/",
    "var-tuple": "ty,big/ty,int/ty,tuple,2,1,2/var,3,0,1,a/ty,int/ty,array,5/var,6,0,1,b/ty,real/var,8,0,1,c/",
    "var-modules": "impl,N/ex,int,1/ty,int/var,3,2,1,a/mod,M/ex,int,2/ty,int/var,7,6,1,b/end/mod,N/ex,int,4/ty,int/"
    "var,12,11,1,c/end/ex,int,5/ty,int/var,16,15,2,b,d/",
    "pend-rows": "ex,other/ty,int/var,2,1,2,a,b/ex,other/ty,int/var,5,4,1,a/ex,int,7/ty,int/var,8,7,1,a/",
    "array-again": "ex,int,3/el,next,1/ex,lit,0,0,1,2/ty,ptr/var,4,3,2,x,y/ex,int,1/ty,big/ex,alloc,6,7/ty,ptr/var,9,8,1,x/"
    "ex,int,9/el,next,11/ex,lit,0,0,1,12/ty,ptr/var,14,13,1,x/",
    "array-empty-part": "ex,int,1/ty,byte/ex,alloc,1,2/ty,ptr/var,4,3,1,x/ex,int,0/ty,byte/ex,alloc,6,7/ty,ptr/var,9,8,1,y/",
    "array-over-real": "ex,real,3FF8000000000000/ty,int/var,2,1,1,x/ex,str,61/el,next,4/ex,lit,0,0,1,5/ty,ptr/var,7,6,1,y/",
    "alloc-declared": "ex,int,5/ty,big/ex,alloc,1,2/ty,byte/ty,array,4/var,5,3,1,x/",
    "alloc-pending": "ex,str,61/ty,big/ex,alloc,1,2/ty,ptr/var,4,3,1,x/ex,real,3FF0000000000000/ty,int/ex,alloc,6,7/ty,ptr/var,9,8,1,y/",
    "literal-bytes": "ex,int,300/ty,byte/ex,cast,2,1/el,next,3/ex,str,61/ty,byte/ex,cast,6,5/el,next,7/ex,real,C004000000000000/"
    "ty,byte/ex,cast,10,9/el,star,11/ex,int,5/ex,lit,13,0,3,4,8,12/ty,ptr/var,15,14,1,x/",
    "literal-byte-and-int": "ex,int,300/ty,byte/ex,cast,2,1/el,next,3/ex,int,1/el,star,5/ex,lit,0,0,2,4,6/ty,ptr/var,8,7,1,x/",
    "literal-overwritten": "ex,str,61/el,next,1/ex,int,5/ex,int,0/se,4,0/el,at,3,1,5/ex,lit,0,0,2,2,6/ty,ptr/var,8,7,1,x/",
    "literal-idle-star": "ex,int,5/el,next,1/ex,str,61/el,star,3/ex,lit,0,0,2,2,4/ty,ptr/var,6,5,1,x/",
    "literal-mixed": "ex,int,5/el,next,1/ex,real,3FF8000000000000/el,next,3/ex,lit,0,0,2,2,4/ty,ptr/var,6,5,1,x/"
    "ex,int,5/el,next,8/ex,real,3FF8000000000000/el,next,10/ex,str,61/el,next,12/ex,lit,0,0,3,9,11,13/ty,ptr/var,15,14,1,y/",
    "literal-pointers": "ex,int,5/el,next,1/ty,ptr/ex,lit,0,3,1,2/ty,ptr/var,5,4,1,x/",
    "literal-next-falls": "ex,int,1/ex,int,5/se,2,0/ex,int,2/se,4,0/el,at,1,2,3,5/ex,int,8/el,next,7/ex,lit,0,0,2,6,8/ty,ptr/var,10,9,1,x/",
    "literal-no-selectors": "ex,int,7/el,at,1,0/ex,int,8/el,next,3/ex,lit,0,0,2,2,4/ty,ptr/var,6,5,1,x/",
    "literal-star-fails": "ex,other/el,star,1/ex,int,0/ex,lit,3,0,1,2/ty,ptr/var,5,4,1,x/",
    "literal-size-kinds": "ex,str,61/ex,lit,1,0,0/ty,ptr/var,3,2,1,x/ex,int,-1/ex,lit,5,0,0/ty,ptr/var,7,6,1,y/"
    "ex,int,0/ex,lit,9,0,0/ty,ptr/var,11,10,1,z/ex,lit,0,0,0/ty,ptr/var,14,13,1,w/",
    "literal-two-stars": "ex,int,1/el,star,1/ex,int,2/el,star,3/ex,int,9/ex,int,1/se,6,0/el,at,5,1,7/ex,int,3/ex,lit,9,0,3,2,4,8/ty,ptr/var,11,10,1,x/",
    "keys": "frame,8,1,0/frame,8,1,0/need,block,8,2,0,4/need,block,8,2,4,0/need,block,8,2,0,4/need,opaque/need,opaque/"
    "need,elem,string/need,elem,int/need,block,4,1,0/ex,int,3/ty,ptr/ex,alloc,11,12/ty,ptr/var,14,13,1,x/need,elem,byte/",
    "block-empty": "need,block,0,1,0/frame,0,0/need,block,3,1,0/need,block,4096,2,4092,4093/need,block,8,3,-4,-1,4/",
    "string-empty": "ex,str,/con,A,1,1,1/ex,str,/ex,str,/ex,bin,0,3,4/ex,len,5/con,B,1,1,6/",
    "string-compare": "ex,str,61/ex,str,61/ex,bin,11,1,2/con,A,1,1,3/",
    "other-in-con": "ex,int,-1/ty,int/ex,alloc,1,2/con,A,1,1,3/ex,lit,0,0,0/con,B,1,1,5/ex,other/con,C,1,1,7/",
    "nil-elsewhere": "ex,int,1/con,nil,1,1,1/ex,id,nil/ty,int/var,4,3,1,x/ty,int/fd,6,1,nil/adt,nil,1,7/mod,nil/end/",
    "used-once-each": "ex,int,1/ex,int,2/ex,bin,0,1,2/ty,int/var,4,3,1,x/ty,int/var,6,0,1,y/",
}


def rows():
    for name, text in ROWS.items():
        yield "doc-" + name, lf(text), None
    build = Build()
    inner = build.put("ty", "byte")
    for depth in range(10):
        inner = build.put("ty", "tuple", 2, build.put("ty", ("big", "int", "string")[depth % 3]), inner)
    build.put("adt", "T", 1, build.put("fd", inner, 2, "a", "b"))
    yield "doc-tuple-chain", build.sheet(), None
    # The Rust would take 2 to the depth steps.
    build = Build()
    inner = build.put("ty", "int")
    for _ in range(28):
        inner = build.put("ty", "tuple", 1, inner)
    field = build.put("fd", inner, 1, "a")
    build.put("adt", "T", 1, field)
    yield "doc-deep-tuple", build.sheet(), ("rec,T,-1,-1,4,80/fld,a,0,4/" + OPAQUE, 0)


# ---- operators, casts and conversions

KINDS = {
    "i": ("ex", "int", 7), "r": ("ex", "real", "C004000000000000"),
    "s": ("ex", "str", "C3A931"), "x": ("ex", "other"),
}
TYPES = ("int", "byte", "big", "real", "string", "ptr", "array", "tuple")


def put_type(build, name):
    if name == "array":
        return build.put("ty", "array", build.put("ty", "int"))
    if name == "tuple":
        return build.put("ty", "tuple", 0)
    return build.put("ty", name)


def put_real(build, bits):
    return build.put("ex", "real", f"{bits:016X}")


def operators():
    build = Build()
    for kind, line in KINDS.items():
        for op in range(4):
            build.put("con", f"u{op}{kind}", 1, 1, build.put("ex", "un", op, build.put(*line)))
        build.put("con", f"len{kind}", 1, 1, build.put("ex", "len", build.put(*line)))
        for to in TYPES:
            ty = put_type(build, to)
            build.put("con", f"{to}{kind}", 1, 1, build.put("ex", "cast", ty, build.put(*line)))
    yield "op-unary-and-casts", build.sheet(), None
    for op in range(19):
        build = Build()
        for left, first in KINDS.items():
            for right, second in KINDS.items():
                value = build.put("ex", "bin", op, build.put(*first), build.put(*second))
                build.put("con", left + right, 1, 1, value)
        yield f"op-binary-{op:02}", build.sheet(), None
    ints = (0, 1, -1, 2, -7, 63, 64, 2**31, 2**63 - 1, -(2**63), 0x123456789ABCDEF)
    for op in (0, 1, 2, 3, 4, 6, 7, 8, 9, 10, 13, 15):
        build = Build()
        for a, left in enumerate(ints):
            for b, right in enumerate(ints):
                value = build.put("ex", "bin", op, build.put("ex", "int", left), build.put("ex", "int", right))
                build.put("con", f"c{a}_{b}", 1, 1, value)
        yield f"op-ints-{op:02}", build.sheet(), None
    reals = (
        0x0, 1 << 63, 0x1, 0x000FFFFFFFFFFFFF, 0x3FF0000000000000, 0xBFF0000000000001,
        0x4008000000000000, 0x3FB999999999999A, 0x7FEFFFFFFFFFFFFF, 0x7FF0000000000000, 0xFFF0000000000000,
    )
    for op in range(4):
        build = Build()
        for a, left in enumerate(reals):
            for b, right in enumerate(reals):
                value = build.put("ex", "bin", op, put_real(build, left), put_real(build, right))
                build.put("con", f"c{a}_{b}", 1, 1, value)
        yield f"op-reals-{op}", build.sheet(), None
        build = Build()
        for a, left in enumerate(INTS):
            one, half = build.put("ex", "int", left), put_real(build, 0x3FE0000000000000)
            build.put("con", f"a{a}", 1, 1, build.put("ex", "bin", op, one, half))
            half, one = put_real(build, 0x3FF8000000000001), build.put("ex", "int", left)
            build.put("con", f"b{a}", 1, 1, build.put("ex", "bin", op, half, one))
        yield f"op-mixed-{op}", build.sheet(), None
    build = Build()
    for a, value in enumerate(INTS):
        ty = build.put("ty", "real")
        build.put("con", f"r{a}", 1, 1, build.put("ex", "cast", ty, build.put("ex", "int", value)))
        ty = build.put("ty", "string")
        build.put("con", f"s{a}", 1, 1, build.put("ex", "cast", ty, build.put("ex", "int", value)))
    yield "op-cast-ints", build.sheet(), None
    build = Build()
    for a, bits in enumerate(REALS):
        for to in ("int", "string"):
            ty = build.put("ty", to)
            build.put("con", f"{to}{a}", 1, 1, build.put("ex", "cast", ty, put_real(build, bits)))
        build.put("con", f"neg{a}", 1, 1, build.put("ex", "un", 0, put_real(build, bits)))
    yield "op-cast-reals", build.sheet(), None
    nan = Build()
    top = nan.put("ex", "bin", 3, put_real(nan, 0), put_real(nan, 0))
    nan.put("con", "A", 1, 1, nan.put("ex", "cast", nan.put("ty", "int"), top))
    yield "op-nan-to-int", nan.sheet(), None


def conversions():
    """Each element type over values of each kind."""
    for of in TYPES:
        for kind, values in (("ints", INTS), ("reals", REALS), ("mixed", "aé\U0001F600")):
            build = Build()
            elements = []
            for value in values[-16:]:
                if kind == "ints":
                    elements.append(build.put("el", "next", build.put("ex", "int", value)))
                elif kind == "reals":
                    elements.append(build.put("el", "next", put_real(build, value)))
                else:
                    elements.append(build.put("el", "next", build.put("ex", "str", hex_text(value))))
                    elements.append(build.put("el", "next", build.put("ex", "int", len(elements))))
            literal = build.put("ex", "lit", 0, put_type(build, of), len(elements), *elements)
            build.put("var", build.put("ty", "ptr"), literal, 1, "x")
            yield f"array-{of}-{kind}", build.sheet(), None


# ---- forms and references

# Each form, whole, with the lines before it that it refers to.
FORMS = (
    "ty,int", "ty,string", "ty,ptr", "ty,int/ty,array,1", "ty,tuple,0", "ty,int/ty,int/ty,tuple,2,1,2",
    "ex,int,-5", "ex,real,7FF0000000000000", "ex,str,E282AC", "ex,id,A", "ex,id,A/ex,qual,1,B",
    "ex,other/ex,un,3,1", "ex,other/ex,other/ex,bin,18,1,2", "ty,int/ex,other/ex,cast,1,2",
    "ex,other/ex,len,1", "ex,other/ty,int/ex,alloc,1,2", "ex,lit,0,0,0",
    "ex,other/ty,int/ex,other/el,next,3/ex,lit,1,2,1,4", "ex,other",
    "ex,other/el,next,1", "ex,other/el,star,1", "ex,other/el,at,1,0", "ex,other/ex,other/se,2,0/el,at,1,1,3",
    "ex,other/ex,other/se,1,2", "fd,0,0", "ty,int/fd,1,2,a,b", "pc,0,0", "fd,0,0/pc,2,a,b,1,1",
    "adt,T,0", "fd,0,0/adt,T,1,1", "pick,T,0,0", "fd,0,0/pc,0,0/pick,T,1,1,1,2", "ex,other/con,A,65535,65535,1",
    "ty,int/var,1,0,0", "ty,int/ex,other/var,1,2,2,a,b", "mod,M/end", "impl,M", "frame,4096,2,-4096,4096",
    "need,adt,T", "need,adt,T.a", "need,elem,big", "need,block,0,0", "need,block,8,1,4", "need,opaque",
)
# Fields that have no form where they stand; the line is the last.
BAD = (
    "ty", "ty,", "ty,INT", "ty,char", "ty, int", "ty,int ", "ty,int\r", "ty,int\0", "zz", "", " ", ",",
    "ex", "ex,int", "ex,int,", "ex,int,+1", "ex,int,-0", "ex,int,00", "ex,int,01", "ex,int,-01", "ex,int,--1", "ex,int,1.0",
    "ex,int,9223372036854775808", "ex,int,-9223372036854775809", "ex,int,18446744073709551616",
    "ex,real,7FF0000000000001", "ex,real,FFF8000000000000", "ex,real,7ff0000000000000", "ex,real,000000000000000",
    "ex,real,00000000000000000", "ex,str", "ex,str,4", "ex,str,4g", "ex,str,c3a9", "ex,str,C3", "ex,str,80", "ex,str,C080",
    "ex,str,C1BF", "ex,str,E08080", "ex,str,EDA080", "ex,str,F0808080", "ex,str,F4908080", "ex,str,F5808080", "ex,str,FF",
    "ex,str,E282", "ex,id,", "ex,id,9a", "ex,id,a-b", "ex,id,a.b", "ex,id,é", "ex,id," + "a" * 33, "ex,other,", "ex,char,1",
    "ty,array,-1", "ty,array,", "ty,array,01", "ty,tuple,17", "ty,tuple,-1", "ty,tuple,01,1", "ex,un,4,1", "ex,bin,19,1,2",
    "ex,un,00,1", "con,A,65536,0,1", "con,A,0,65536,1", "con,A,-1,0,1", "con,A,0,1", "frame,4097,0", "frame,-1,0",
    "frame,8,1,4097", "frame,8,1,-4097", "frame,8,1,-0", "frame,8,17" + ",0" * 17, "need,block,4097,0", "need,adt,", "need,adt,T.",
    "need,adt,.T", "need,adt,T.a.b", "need,elem,ptr", "need,elem,array", "need,block,8", "need,opaque,0", "need", "end,", "mod", "mod,",
    "var,1,0,17" + ",a" * 17, "fd,0,1", "fd,0,0,a", "pc,0", "pc,1,a", "adt,T", "adt,T,0,0", "pick,T,0", "el,next", "el,at,1", "se,1",
)
ONE_OF_EACH = "ty,int/ex,other/ex,other/el,next,3/ex,other/se,5,0/fd,0,0/pc,0,0/ex,other/con,A,1,1,9/adt,T,0/"
PLACE = {"ty": 1, "ex": 2, "el": 4, "se": 6, "fd": 7, "pc": 8, "con": 10, "adt": 11}
# A slot is [KIND], or [KIND?] where 0 is allowed; the other slots are filled rightly.
SLOTS = (
    "ty,array,[ty]", "ty,tuple,1,[ty]", "ex,qual,[ex],A", "ex,un,0,[ex]", "ex,len,[ex]", "ex,cast,[ty],[ex]",
    "ex,alloc,[ex],[ty]", "ex,lit,[ex?],[ty?],1,[el]", "el,next,[ex]", "el,star,[ex]", "el,at,[ex],1,[se]", "se,[ex],0",
    "fd,[ty?],0", "pc,0,1,[fd]", "adt,T,1,[fd]", "pick,T,1,[fd],1,[pc]", "con,A,1,1,[ex]", "var,[ty],[ex?],0",
)


def forms():
    for text in FORMS:
        name = text.split("/")[-1].split(",")
        name = "-".join(name[:2]) if len(name) > 1 else name[0]
        number = text.count("/") + 1
        label = f"form-{FORMS.index(text):02}-{name.lower()}".replace(".", "").replace("_", "")
        yield label, lf(text + "/"), None
        yield label + "-more", lf(text + ",1/"), (3, number)
        if text != "mod,M/end":
            yield label + "-fewer", lf(text.rpartition(",")[0] + "/"), (3, number)
        yield label + "-no-lf", lf(text), (3, number)
    for number, text in enumerate(BAD):
        yield f"form-bad-{number:03}", b"ty,int\nex,other\n" + text.encode() + b"\n", (3, 3)
    yield "form-impl-late", lf("ty,int/impl,M/"), (3, 2)
    yield "form-only-lf", b"\n", (3, 1)
    yield "form-cr-lf", b"ty,int\r\n", (3, 1)
    yield "form-latin-1", b"ex,id,\xe9\n", (3, 1)
    long = "4" * 248
    yield "form-line-255", lf(f"ex,str,{long}/con,A,1,1,1/"), None
    names = ["a" * 32] * 7
    yield "form-line-255-names", lf(",".join(["fd,0,8"] + names + ["b" * 17]) + "/"), None
    yield "form-line-256", lf(",".join(["fd,0,8"] + names + ["b" * 18]) + "/"), (3, 1)
    yield "form-name-32", lf("ex,int,1/con," + "a" * 32 + ",1,1,1/"), None
    yield "form-name-33", lf("ex,int,1/con," + "a" * 33 + ",1,1,1/"), (3, 2)
    yield "form-count-16", lf("ty,int/var,1,0,16" + ",a" * 16 + "/"), None
    yield "form-count-17", lf("ty,int/var,1,0,17" + ",a" * 17 + "/"), (3, 2)
    yield "form-lines-1024", lf("ty,int/" * 1024), None
    yield "form-lines-1025", lf("ty,int/" * 1025), (3, 1025)
    yield "form-lines-1025-no-lf", lf("ty,int/" * 1024 + "t"), (3, 1025)


def references():
    for number, text in enumerate(SLOTS):
        parts = text.replace("]", "[").split("[")
        for slot in range(1, len(parts), 2):
            kind = parts[slot].rstrip("?")
            wrong = [str(line) for other, line in PLACE.items() if other != kind] + ["12", "13", "9" * 40]
            if not parts[slot].endswith("?"):
                wrong.append("0")
            for ref in [str(PLACE[kind])] + wrong:
                filled = parts[:]
                filled[1::2] = [str(PLACE[part.rstrip("?")]) for part in parts[1::2]]
                filled[slot] = ref
                # Three wrong references for each slot keep the list short.
                if ref in wrong and (wrong.index(ref) + number + slot) % 4:
                    continue
                made = (4, 12) if ref in wrong else None
                label = f"ref-{number:02}-{slot // 2}-{ref if len(ref) < 9 else 'huge'}"
                yield label, lf(ONE_OF_EACH + "".join(filled) + "/"), made
    yield "ref-twice-one-line", lf("ex,int,1/ex,bin,0,1,1/"), (4, 2)
    yield "ref-twice", lf("ty,int/ty,array,1/ex,other/ty,array,1/ty,array,9/"), (4, 4)
    yield "ref-wraps-16", lf("ty,int/ty,array,65537/"), (4, 2)
    yield "ref-wraps-32", lf("ty,int/ty,array,4294967297/"), (4, 2)
    yield "ref-wraps-64", lf("ty,int/ty,array,18446744073709551617/"), (4, 2)
    yield "ref-248-digits", lf("ex,other/ex,len," + "1" * 248 + "/"), (4, 2)
    yield "ref-249-digits", lf("ex,other/ex,len," + "1" * 249 + "/"), (3, 2)
    yield "ref-itself", lf("ex,len,1/"), (4, 1)


# ---- faults: each adds lines to a sheet and gives the line that is refused


def fault_3(build):
    return build.put("zz")


def fault_4(build):
    return build.put("ty", "array", 0)


def fault_5(build):
    line = build.put("ex", "other")
    for _ in range(32):
        line = build.put("ex", "un", 0, line)
    return line


def fault_6(build):
    return build.put("end")


def fault_7(build):
    return [build.put("need", "opaque") for _ in range(129)][-1]


def put_string(build, size):
    """A string of so many bytes, joined from parts of up to 124."""
    line = build.put("ex", "str", "61" * min(size, 124))
    while size > 124:
        size -= 124
        line = build.put("ex", "bin", 0, line, build.put("ex", "str", "61" * min(size, 124)))
    return line


def put_array(build, value, name="x", of="ptr"):
    return build.put("var", put_type(build, of), value, 1, name)


def put_alloc(build, length, of="int", name="x"):
    size = build.put("ex", "int", length)
    return put_array(build, build.put("ex", "alloc", size, put_type(build, of)), name)


def put_span(build, low, high, value=1):
    ends = [build.put("ex", "int", low), build.put("ex", "int", high) if high is not None else 0]
    value = build.put("ex", "int", value)
    return build.put("el", "at", value, 1, build.put("se", *ends))


def put_literal(build, size, *elements, name="x"):
    size = build.put("ex", "int", size) if size is not None else 0
    return put_array(build, build.put("ex", "lit", size, 0, len(elements), *elements), name)


def fault_8(build):
    return build.put("con", "S", 1, 1, put_string(build, 257))


def fault_9(build):
    return put_alloc(build, 2**31)


def fault_10(build):
    return put_alloc(build, -1)


def fault_11(build):
    return put_literal(build, 3, put_span(build, 3, None))


def fault_12(build):
    return put_literal(build, 1025)


def fault_13(build):
    for number in range(33):
        put_literal(build, 1024, name=f"w{number}")
    return 0


FAULTS = {number: globals()[f"fault_{number}"] for number in range(3, 14)}


def precedence():
    for first in FAULTS:
        for second in FAULTS:
            if first == second:
                continue
            build = Build()
            lines = {number: FAULTS[number](build) for number in (first, second)}
            low, high = sorted((first, second))
            # 3 to 7 in order; a constant before any `var`; then as work meets them.
            number = low if low <= 8 or high == 13 else first
            yield f"both-{first:02}-{second:02}", build.sheet(), (number, lines[number])
    build = Build()
    build.put("impl", "M")
    build.put("mod", "N")
    fault_9(build)
    build.put("end")
    yield "both-unimplemented", build.sheet(), None
    build.put("mod", "M")
    mark = fault_10(build)
    build.put("end")
    fault_11(build)
    yield "both-in-module", build.sheet(), (10, mark)
    build = Build()
    fault_8(build)
    build.put("mod", "M")
    mark = fault_8(build)
    build.put("end")
    yield "both-constants", build.sheet(), (8, mark)
    build = Build()
    put_array(build, put_string(build, 257))
    mark = fault_8(build)
    yield "both-var-then-con", build.sheet(), (8, mark)
    yield "both-too-long-and-bad", b"z" * 65536, (1, 0)
    yield "both-long-bad", b"z" * 65535, (3, 1)
    yield "both-no-lf-and-4", lf("ty,array,9/ty,int"), (3, 2)
    yield "both-lines-and-4", lf("ty,array,9/" + "ty,int/" * 1024), (3, 1025)
    yield "both-4-later", lf("end/ty,array,99/"), (4, 2)


# ---- both sides of each refusal


def sheet_of(size):
    """Lines that nothing refers to, of so many bytes in all."""
    line = b"ex,str," + b"4" * 248 + b"\n"
    out = line * (size // 256 - 1)
    rest = size - len(out)
    if rest % 2:
        out += b"ex,other\n"
    while len(out) < size:
        part = min(256, size - len(out))
        if 0 < size - len(out) - part < 8:
            part -= 8
        out += b"ex,str," + b"4" * (part - 8) + b"\n"
    return out


def sizes():
    yield "size-65535", sheet_of(65535), None
    yield "size-65536", sheet_of(65536), (1, 0)
    yield "size-65537", sheet_of(65537), (1, 0)


def depths():
    for depth in (31, 32, 33):
        build = Build()
        line = build.put("ex", "other")
        for _ in range(depth - 1):
            line = build.put("ex", "un", 2, line)
        yield f"depth-un-{depth}", build.sheet(), (5, 33) if depth == 33 else None
    for depth in (31, 32):  # the `con` line is one more
        build = Build()
        line = build.put("ex", "int", 5)
        for _ in range(depth - 1):
            line = build.put("ex", "un", 2, line)
        build.put("con", "A", 1, 1, line)
        yield f"depth-con-{depth + 1}", build.sheet(), (5, 33) if depth == 32 else None
    build = Build()
    line = build.put("ty", "int")
    for _ in range(31):
        line = build.put("ty", "array", line)
    yield "depth-array-32", build.sheet(), None
    build.put("fd", line, 0)
    yield "depth-array-33", build.sheet(), (5, 33)
    build = Build()
    line = build.put("ex", "int", 5)
    for _ in range(15):
        line = build.put("ex", "bin", 0, build.put("ex", "int", 1), build.put("ex", "un", 0, line))
    build.put("con", "A", 1, 1, line)
    yield "depth-mixed-32", build.sheet(), None
    build.put("con", "B", 1, 1, build.put("ex", "bin", 0, build.put("ex", "int", 1), build.put("ex", "int", 1)))
    yield "depth-mixed-after", build.sheet(), None


def modules():
    yield "mod-in-mod", lf("mod,A/mod,B/end/end/"), (6, 2)
    yield "mod-in-same", lf("mod,A/mod,A/end/end/"), (6, 2)
    yield "mod-end-outside", lf("end/"), (6, 1)
    yield "mod-end-twice", lf("mod,A/end/end/"), (6, 3)
    yield "mod-open", lf("mod,A/ty,int/ty,int/"), (6, 3)
    yield "mod-open-alone", lf("mod,A/"), (6, 1)
    yield "mod-open-again", lf("mod,A/end/mod,A/"), (6, 3)
    yield "mod-empty", lf("impl,A/mod,A/end/mod,A/end/"), None


def counts():
    for over in (0, 1):
        made = lambda build: (7, len(build.lines)) if over else None
        for kind, line in (("need", ("need", "opaque")), ("frame", ("frame", 4, 0))):
            build = Build()
            for _ in range(128 + over):
                build.put(*line)
            yield f"count-{kind}-{128 + over}", build.sheet(), made(build)
        build = Build()
        build.put("mod", "M")
        for _ in range(127):
            build.put("con", "A", 1, 1, build.put("ex", "other"))
        build.put("end")
        for _ in range(1 + over):
            build.put("con", "A", 1, 1, build.put("ex", "id", "iota"))
        yield f"count-con-{128 + over}", build.sheet(), made(build)
        build = Build()
        for number in range(112 + over):
            build.put("adt", f"T{number}", 0)
        build.put("pc", 16, *("a" * 16), 0)  # in no `pick`: counts nothing
        tags = build.put("pc", 15, *(f"t{number}" for number in range(15)), 0)
        build.put("pick", "P", 0, 1, tags)
        yield f"count-records-{128 + over}", build.sheet(), made(build)
        build = Build()
        cases = [build.put("pc", 16, *("a" * 16), 0) for _ in range(8)]
        if not over:
            cases[0] = build.put("pc", 15, *("a" * 15), 0)
        build.put("pick", "P", 0, 8, *cases)
        yield f"count-tags-{128 + over}", build.sheet(), made(build)
        build = Build()
        for number in range(16 + over):
            names = [f"v{number}_{n}" for n in range(16)] if number < 14 else ["nil"] * 16
            names = names[: 16 if number < 16 else 1]
            build.put("var", build.put("ty", "int"), 0, len(names), *names)
        yield f"count-names-{256 + over}", build.sheet(), made(build)


def strings():
    for size in (255, 256, 257, 300):
        made = lambda build: (8, len(build.lines)) if size > 256 else None
        build = Build()
        build.put("con", "A", 1, 1, put_string(build, size))
        yield f"string-con-{size}", build.sheet(), made(build)
        build = Build()
        put_array(build, put_string(build, size), of="string")
        yield f"string-var-{size}", build.sheet(), made(build)
        build = Build()
        build.put("con", "A", 1, 1, build.put("ex", "len", put_string(build, size)))
        yield f"string-len-{size}", build.sheet(), made(build)
        build = Build()
        line = build.put("ex", "un", 0, put_string(build, size))
        build.put("con", "A", 1, 1, line)
        yield f"string-under-neg-{size}", build.sheet(), made(build)
        build = Build()
        element = build.put("el", "next", put_string(build, size))
        put_array(build, build.put("ex", "lit", 0, 0, 1, element))
        yield f"string-element-{size}", build.sheet(), made(build)
        build = Build()
        length = build.put("ex", "len", put_string(build, size))
        put_array(build, build.put("ex", "alloc", length, build.put("ty", "int")))
        yield f"string-alloc-{size}", build.sheet(), made(build)
        build = Build()
        left = build.put("ex", "other")
        line = build.put("ex", "bin", 0, left, put_string(build, size))
        build.put("con", "A", 1, 1, line)
        yield f"string-not-met-{size}", build.sheet(), ("con,A,x/" + OPAQUE, 0)
        build = Build()
        right = put_string(build, size)
        line = build.put("ex", "bin", 5, build.put("ex", "int", 1), right)
        build.put("con", "A", 1, 1, line)
        yield f"string-under-power-{size}", build.sheet(), made(build)
        build = Build()
        put_array(build, build.put("ex", "qual", put_string(build, size), "A"))
        yield f"string-in-qual-{size}", build.sheet(), PENDING
        build = Build()
        value = put_string(build, size)
        build.put("var", build.put("ty", "ptr"), value, 0)
        yield f"string-no-names-{size}", build.sheet(), made(build)
        build = Build()
        element = build.put("el", "next", put_string(build, size))
        literal = build.put("ex", "lit", 0, 0, 1, element)
        build.put("var", build.put("ty", "ptr"), literal, 1, "nil")
        yield f"string-element-nil-{size}", build.sheet(), (OPAQUE, 0)
        build = Build()
        bad = build.put("el", "next", build.put("ex", "other"))
        element = build.put("el", "next", put_string(build, size))
        put_array(build, build.put("ex", "lit", 0, 0, 2, bad, element))
        yield f"string-after-pending-{size}", build.sheet(), PENDING
    # Bytes count, not characters: 85 of three bytes and one more.
    for last in ("a", "é"):
        build = Build()
        line = None
        for text in ("€" * 41, "€" * 41, "€€€" + last):
            part = build.put("ex", "str", hex_text(text))
            line = build.put("ex", "bin", 0, line, part) if line else part
        build.put("con", "A", 1, 1, line)
        yield f"string-utf8-{'fits' if last == 'a' else 'over'}", build.sheet(), None if last == "a" else (8, len(build.lines))
    build = Build()
    build.put("con", "A", 1, 1, put_string(build, 128))
    build.put("con", "B", 1, 1, build.put("ex", "bin", 0, build.put("ex", "id", "A"), build.put("ex", "id", "A")))
    yield "string-by-name-256", build.sheet(), None
    build.put("con", "C", 1, 1, build.put("ex", "bin", 0, build.put("ex", "str", "61"), build.put("ex", "id", "B")))
    yield "string-by-name-257", build.sheet(), (8, len(build.lines))


def arrays():
    lengths = (0, 1, 2**31 - 1, 2**31, 2**63 - 1, -1, -(2**31), -(2**31) - 1, -(2**63))
    for length in lengths:
        build = Build()
        line = put_alloc(build, length)
        number = 9 if not -(2**31) <= length < 2**31 else 10 if length < 0 else None
        yield f"alloc-{length}".replace("--", "-minus-"), build.sheet(), number and (number, line)
    for names in (("nil",), ()):
        build = Build()
        size = build.put("ex", "int", -1)
        literal = build.put("ex", "alloc", size, build.put("ty", "int"))
        build.put("var", build.put("ty", "ptr"), literal, len(names), *names)
        yield f"alloc-unnamed-{len(names)}", build.sheet(), None
    for size in (0, 1, 3, 4):
        build = Build()
        line = put_literal(build, size, put_span(build, 1, 3))
        yield f"literal-index-{size}", build.sheet(), (11, line) if size < 4 else None
    build = Build()
    elements = [build.put("el", "next", build.put("ex", "int", 1)) for _ in range(3)]
    line = put_literal(build, 2, *elements)
    yield "literal-index-next", build.sheet(), (11, line)
    for length in (1023, 1024, 1025, 65536, 2**31, 2**32, 2**63 - 1):
        build = Build()
        line = put_literal(build, length)
        yield f"literal-size-{length}", build.sheet(), (12, line) if length > 1024 else None
        build = Build()
        line = put_literal(build, None, put_span(build, length - 1, None))
        yield f"literal-at-{length}", build.sheet(), (12, line) if length > 1024 else None
        build = Build()
        line = put_literal(build, None, put_span(build, 0, length - 1))
        yield f"literal-span-{length}", build.sheet(), (12, line) if length > 1024 else None
        build = Build()
        line = put_literal(build, 5, put_span(build, 0, length - 1))
        yield f"literal-span-outside-{length}", build.sheet(), (11, line)
        build = Build()
        line = put_literal(build, length, put_span(build, 5, length))
        yield f"literal-span-past-{length}", build.sheet(), (11, line)
    # 11 and 12 in one literal: an index outside its size comes first.
    build = Build()
    line = put_literal(build, 1025, put_span(build, 1025, None))
    yield "literal-both", build.sheet(), (11, line)
    top = 2**63 - 1
    pending = {
        "to-top-then-next": ((5, top), None), "from-minus": ((-1, top), 0), "all": ((-(2**63), top), 0),
        "minus-to-minus": ((-9, -3), 0), "minus-alone": ((-1, None), 0),
    }
    for name, (span, then) in pending.items():
        build = Build()
        elements = [put_span(build, *span)]
        if then is None:
            elements.append(build.put("el", "next", build.put("ex", "int", 2)))
        put_literal(build, None, *elements)
        yield f"span-pending-{name}", build.sheet(), PENDING
    build = Build()
    element = put_span(build, 5, top)
    star = build.put("el", "star", build.put("ex", "int", 2))
    line = put_literal(build, None, element, star)
    yield "span-to-top-then-star", build.sheet(), (12, line)
    build = Build()
    line = put_literal(build, 9, put_span(build, top, None), build.put("el", "star", build.put("ex", "int", 2)))
    yield "span-top-outside", build.sheet(), (11, line)
    for name, (low, high) in {"near": (3, 2), "far": (top, -(2**63)), "minus": (-1, -2), "zero": (0, -1)}.items():
        build = Build()
        first = build.put("el", "next", build.put("ex", "int", 4))
        element = put_span(build, low, high)
        last = build.put("el", "next", build.put("ex", "int", 5))
        put_literal(build, None, first, element, last)
        yield f"span-empty-{name}", build.sheet(), None
    build = Build()
    bad = build.put("ex", "other")
    long = put_string(build, 257)
    select = build.put("se", bad, long)
    element = build.put("el", "at", build.put("ex", "int", 1), 1, select)
    put_literal(build, None, element)
    yield "span-low-fails-first", build.sheet(), PENDING
    build = Build()
    select = build.put("se", build.put("ex", "int", -1), put_string(build, 257))
    element = build.put("el", "at", build.put("ex", "int", 1), 1, select)
    line = put_literal(build, None, element)
    yield "span-high-folded-before-sign", build.sheet(), (8, line)
    build = Build()
    size = put_string(build, 257)
    element = build.put("el", "next", build.put("ex", "int", 1))
    line = put_array(build, build.put("ex", "lit", size, 0, 1, element))
    yield "span-size-last", build.sheet(), (8, line)


def zeros(build, length, number):
    """A literal of zeros, and the bytes its rows take in the listing."""
    put_literal(build, length, name=f"g{number}")
    off = 4 * number
    return len(f"glo,g{number},{off},4,1/dat,array,{off},2,{length}/dat,set,{off},0/dat,words,0,{length}," + "0," * length + "dat,back/")


def listing_of(size):
    """A sheet whose listing has so many bytes."""
    build = Build()
    used, number = len(OPAQUE + "typ,2,4,0,00/"), 0
    while size - used > 2300:
        used += zeros(build, 1024, number)
        number += 1
    rest = size - used - len("con,,i,0/") - 16
    used += zeros(build, (rest - 70) // 2, number)
    build.put("con", "k" * (size - used - len("con,,i,0/")), 1, 1, build.put("ex", "int", 0))
    return build


def rooms():
    yield "listing-65536", listing_of(65536).sheet(), None
    yield "listing-65537", listing_of(65537).sheet(), (13, 0)
    build = listing_of(65536)
    put_alloc(build, -1)
    yield "listing-over-then-10", build.sheet(), (10, len(build.lines))
    for of, length in (("byte", 65536), ("byte", 65537), ("big", 8193), ("int", 16385), ("real", 2**31 - 1)):
        build = Build()
        put_alloc(build, length, of)
        yield f"area-{of}-{length}", build.sheet(), None
    for first, second in ((65528, 8), (65528, 9), (65529, 1), (65537, 0)):
        build = Build()
        put_alloc(build, first, "byte", "x")
        put_alloc(build, second, "byte", "y")
        yield f"area-parts-{first}-{second}", build.sheet(), None
    build = Build()
    for number in range(12):
        star = build.put("el", "star", put_real(build, REALS[number]))
        put_literal(build, 100, star, name=f"a{number}")
    yield "area-reals", build.sheet(), None
    build = Build()
    for number in range(16):
        build.put("var", build.put("ty", "real"), put_real(build, REALS[number]), 16, *(f"r{number}_{n}" for n in range(16)))
    yield "image-largest", build.sheet(), None


def edges():
    out = []
    for family in (rows, operators, conversions, forms, references, sizes, depths, modules, counts, strings, arrays, precedence, rooms):
        out += family()
    names = [name for name, _, _ in out]
    assert len(names) == len(set(names)), sorted(n for n in names if names.count(n) > 1)
    return out
