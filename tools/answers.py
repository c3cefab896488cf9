"""Answers of sheets, from checks.py, the Rust and replay.py; see tools/answer."""
import checks
import oracle
import replay
import store


def of_rust(answer):
    """Listing or refusal, and the image text, of what the harness gave."""
    if store.refused(answer):
        return answer, b""
    listing, end = oracle.listing_and_end(answer)
    if len(listing) > replay.ROOM:
        return b"no,13,0\n", b""
    return listing, replay.text(listing, end)


def answered(cases):
    """The cases that have an answer, or can be given one."""
    done, asked = [], []
    for case in cases:
        if case.out:
            done.append(case)
            continue
        refusal = checks.refusal(case.sheet)
        if refusal:
            done.append(case._replace(origin="checks", out=b"no,%d,%d\n" % refusal, img=b""))
        elif not checks.may_join_over(case.sheet):
            asked.append(case)
    for case, answer in zip(asked, oracle.ask([case.sheet for case in asked])):
        if answer is not None:
            out, img = of_rust(answer)
            done.append(case._replace(origin="rust", out=out, img=img))
    return done
