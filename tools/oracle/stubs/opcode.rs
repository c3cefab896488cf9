//! Stand-in for `ricevm_core`'s opcode.rs, which is not among the files that 01 names: every variant that
//! `codegen.rs` names. The numbers are not dis(6)'s; nothing compared depends on them.

#[derive(Debug, Clone, Copy, PartialEq, Eq)]
pub enum Opcode {
    Addc, Addf, Addl, Addw, Alt, Andl, Andw, Beqc, Beqf, Beql, Beqw, Bgef, Bgel, Bgew, Bgtf,
    Bgtl, Bgtw, Blef, Blel, Blew, Bltf, Bltl, Bltw, Bnec, Bnef, Bnel, Bnew, Call, Consp, Cvtac,
    Cvtca, Cvtcw, Cvtfc, Cvtfl, Cvtfw, Cvtlc, Cvtlf, Cvtlw, Cvtwc, Cvtwf, Cvtwl, Divf, Divl,
    Divw, Exit, Expf, Expl, Expw, Frame, Headp, Indb, Indc, Indf, Indl, Indw, Insc, Jmp, Lea,
    Lena, Lenc, Load, Mcall, Mframe, Modl, Modw, Movb, Movf, Movl, Movp, Movw, Mulf, Mull, Mulw,
    Nbalt, New, Newa, Newcb, Newcf, Newcl, Newcm, Newcmp, Newcp, Newcw, Orl, Orw, Raise, Recv,
    Ret, Send, Shll, Shlw, Shrl, Shrw, Slicea, Slicela, Spawn, Subf, Subl, Subw, Tail, Xorl,
    Xorw,
}
