#!/usr/bin/env python3
"""Programs written at random, for the scripts that compare commands on them.

    import texts
    text = texts.declarations(chance) + texts.Writer(chance).program()

A program has declarations with EQUIVALENCE and COMMON over arrays, subscripts that are known, out of bounds, or read, and jumps, loops and
blocks as in `regions.py`. No DO variable stands in a subscript. `chance` is a `random.Random`, which settles the text.
"""
import regions

SIMPLE = """I=I+1|J=I|PRINT *,I|CONTINUE|K=I/J|IA(I)=J|K=IA(2)|K=IA(I)|IB(1,I)=IA(J)|PRINT *,'X'|PRINT *,IA(3),IB(1,2)|READ *,I|READ *,IA(J)
K=MOD(I,3)|K=MOD(I,J)|L=J**2|IA(7)=1|K=5/0|P=I.LT.J|IA(IC(2))=IC(I)|L=L**(-1)|K=2**J|IC(3)=4/2|PRINT *|READ *,P|K=MAX(I,J,3)|K=-2**2
IB(2,3)=IB(J,1)|K=ABS(I)|IA(2-1)=IA(1+1)|K=IA(MOD(I,5)+1)|PRINT *,P,I/2|Q(2)=P.OR.Q(1)|IB(I,IA(2))=IE|IC(IA(IB(1,1)))=0|K=-I|L=IE"""
CONDITIONS = ["I.LT.J", "P", "IA(1).EQ.2", "IA(I).GT.0", ".TRUE.", "2.GT.1", "I/J.EQ.1", "Q(I)"]
PLACES = ["IA(1)", "IA(3)", "IA(5)", "IB(1,2)", "IB(2,3)", "IC(1)", "IC(2)", "IC(4)", "IE", "I", "J", "K", "L"]


class Writer(regions.Writer):
    """Writes one program, whose statements have subscripts."""

    def block(self, size, depth, low, high):
        while size > 0:
            form = self.chance.random()
            if form < 0.4:
                self.put(self.chance.choice(SIMPLE.replace("\n", "|").split("|")))
            elif form < 0.6:
                act = self.chance.choice(["K=1", self.jump(low, high), "STOP", "CONTINUE", "PRINT *,K", "READ *,J"])
                self.put(f"IF({self.chance.choice(CONDITIONS)})" + act)
            elif form < 0.8 - 0.1 * depth:
                self.put(self.jump(low, high) if self.chance.random() < 0.95 else "STOP")
            elif form < 0.9:
                size -= self.loop(size // 2, depth, low, high)
            else:
                size -= self.branches(size // 2, depth, low, high)
            size -= 1

    def jump(self, low, high):
        form = self.chance.random()
        if form < 0.45:
            return f"GO TO {self.target(low, high)}"
        if form < 0.7:
            selector = self.chance.choice(["I-J", "IA(2)", "3", "IA(K)", "I/J"])
            return f"IF({selector})" + ",".join(str(self.target(low, high)) for _ in range(3))
        labels = ",".join(str(self.target(low, high)) for _ in range(self.chance.randint(1, 4)))
        return f"GO TO ({labels}),{self.chance.choice(['I', '2', 'IA(K)'])}"

    def loop(self, size, depth, low, high):
        end = 100000 - len(self.lines) - 1 - 7 * depth
        for variable in ["M", "N", "IE"][: self.chance.choice([1, 1, 1, 2, 3])]:
            bounds = self.chance.choice(["3", "I", "0", "IA(2)", "9,2", "9,K", "9,-1", "I/J"])
            self.put(f"DO {end} {variable}=1,{bounds}")
        if depth < 3:
            first = self.next + 20
            self.block(size, depth + 1, first, max(first, first + 10 * size - 20))
        self.put(self.chance.choice(["CONTINUE", "I=I+1", "IF(I.EQ.2)K=K+1"]), end)
        return size


def declarations(chance):
    """The types of the names, and at will a COMMON block and places that are made one."""
    lines = ["INTEGER IA(5),IB(2,3),IC(4)", "LOGICAL P,Q(3)"]
    if chance.random() < 0.3:
        lines.append("COMMON /C/ " + ",".join(chance.sample(["IA", "IB", "IC", "I", "J"], chance.randint(1, 3))))
    for _ in range(chance.choice([0, 1, 1, 1, 2])):
        lines.append(f"EQUIVALENCE ({','.join(chance.sample(PLACES, chance.choice([2, 2, 2, 3])))})")
    if chance.random() < 0.3:
        lines.append("EQUIVALENCE (P,Q(2))")
    return "".join(f"      {line}\n" for line in lines)
