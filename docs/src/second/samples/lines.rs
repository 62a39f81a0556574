//! Lines that may stand for a line of a catalogue, and are none.

/// What may stand in the place of `sum=add` and is no such line.
pub const OTHER_SUMS: [&str; 17] = ["sum=xor\n", "sum=\n", "sum=1\n", "sum=Add\n", "sum=adds\n", "sum=ad\n", "sum=add \n", "sum= add\n", "sum=add\r\n",
    "sum=add\n\n", "sum=add\nsum=add\n", "sum=add\nsum=xor\n", "sum=xor\nsum=add\n", "Sum=add\n", "sums=add\n", "sum add\n", "\nsum=add\n"];

/// What may stand in the place of `code=turn` and is no such line.
pub const OTHER_CODES: [&str; 22] = ["code=turns\n", "code=tur\n", "code=urn\n", "code=Turn\n", "code=TURN\n", "code=turm\n", "code=tirn\n", "code=turn \n",
    "code= turn\n", "code=turn\r\n", "code=turn\0\n", "code=turning\n", "code=turnturn\n", "code=turneven\n", "code=shortturn\n", "code=2\n",
    "code=turn\ncode=turn\n", "code=short\ncode=turn\n", "Code=turn\n", "codes=turn\n", "turn\n", "code=turn"];

/// What may stand in the place of `code=round` and is no such line.
pub const OTHER_ROUNDS: [&str; 26] = ["code=rounds\n", "code=roun\n", "code=ound\n", "code=Round\n", "code=ROUND\n", "code=rounD\n", "code=rownd\n",
    "code=round \n", "code= round\n", "code=round\r\n", "code=round\0\n", "code=rounded\n", "code=roundround\n", "code=roundturn\n", "code=turnround\n",
    "code=around\n", "code=3\n", "code=r\n", "code=\n", "code=round\ncode=round\n", "code=short\ncode=round\n", "Code=round\n", "codes=round\n", "round\n",
    "code=round", "code round\n"];
