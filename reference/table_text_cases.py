"""The cases of crates/test_table_text. `stdin` gives their names and texts with a '#' after each, `stdout` for each its name and
what readtable prints. The files of these names in the crate hold the output."""
import sys
from daybook import chains, readtable


def table(scheme, n, d, changed):
    """The outcomes of a table that the changed days give, as digits."""
    return b"".join(b"0" if set(chain) & set(changed) else b"1" for chain in chains(scheme, n, d))


# a name and a text
FORM = [
    ("paper", b"2,4,1,8\n11110010\n"),
    ("empty", b""),
    ("one line feed", b"\n"),
    ("two line feeds", b"\n\n"),
    ("first line only", b"1,2,1,2\n"),
    ("no line feed at all", b"1,2,1,2"),
    ("no second line feed", b"1,2,1,2\n1"),
    ("three line feeds", b"1,2,1,2\n1\n\n"),
    ("line feed first", b"\n1,2,1,2\n1\n"),
    ("byte after", b"1,2,1,2\n1\n1"),
    ("space after", b"1,2,1,2\n1\n "),
    ("zero byte after", b"1,2,1,2\n1\n\0"),
    ("carriage return in line 1", b"1,2,1,2\r\n1\n"),
    ("carriage return in line 2", b"1,2,1,2\n1\r\n"),
    ("space before", b" 1,2,1,2\n1\n"),
    ("space in line 1", b"1, 2,1,2\n1\n"),
    ("space in line 2", b"1,1,1,2\n1 1\n"),
    ("plus", b"+1,2,1,2\n1\n"),
    ("minus", b"1,2,1,-2\n1\n"),
    ("letter in line 1", b"1,2,1,2a\n1\n"),
    ("letter in line 2", b"1,2,1,2\na\n"),
    ("comma in line 2", b"1,1,1,2\n1,1\n"),
    ("byte before 0", b"1,2,1,2\n/\n"),
    ("byte after 9", b"1,2,1,2\n:\n"),
    ("byte 255", b"1,2,1,2\n\xff\n"),
    ("semicolon", b"1;2;1;2\n1\n"),
]
FIELDS = [
    ("no scheme", b",2,1,2\n1\n"),
    ("no N", b"1,,1,2\n1\n"),
    ("no D", b"1,2,1,\n1\n"),
    ("three fields", b"1,2,1\n1\n"),
    ("five fields", b"1,2,1,2,1\n1\n"),
    ("comma at the end", b"1,2,1,2,\n1\n"),
    ("leading zero in scheme", b"01,2,1,2\n1\n"),
    ("leading zero in N", b"1,02,1,2\n1\n"),
    ("leading zero in F", b"1,2,01,2\n1\n"),
    ("leading zero in D", b"1,2,1,02\n1\n"),
    ("double zero", b"1,2,1,00\n\n"),
    ("zero scheme", b"0,2,1,2\n1\n"),
    ("zero N", b"1,0,1,2\n1\n"),
    ("zero F", b"1,2,0,2\n1\n"),
    ("zero D", b"1,2,1,0\n\n"),
    ("five digits in scheme", b"99999,2,1,2\n1\n"),
    ("five digits in N", b"1,99999,1,2\n1\n"),
    ("five digits in F", b"1,2,99999,2\n1\n"),
    ("five digits in D", b"1,2,1,99999\n1\n"),
    ("six digits in scheme", b"100000,2,1,2\n1\n"),
    ("six digits in F", b"1,2,100001,2\n1\n"),
    ("six digits in D", b"1,2,1,100002\n1\n"),
    ("D 65536", b"1,2,1,65536\n1\n"),
]
ORDER = [
    ("scheme 9", b"9,1,1,1\n1\n"),
    ("scheme 4", b"4,3,65,5\n22\n"),
    ("N 3", b"1,3,1,3\n1\n"),
    ("N 512", b"1,512,65,256\n2\n"),
    ("F 65", b"1,1,65,65\n2\n"),
    ("F 2 in the tree", b"3,1,2,2\n1\n"),
    ("D no multiple", b"1,2,1,3\n222\n"),
    ("D over 256, wrong scheme", b"9,1,1,257\n1\n"),
    ("D over 256, line 2 not formed", b"9,1,1,257\nx\n"),
    ("extra digit", b"1,2,1,2\n11\n"),
    ("extra digit, one over 1", b"1,2,1,2\n22\n"),
    ("only the extra digit over 1", b"1,2,1,2\n12\n"),
    ("missing digit", b"1,1,1,2\n1\n"),
    ("missing digit, one over 1", b"1,1,1,2\n2\n"),
    ("no digits", b"1,2,1,2\n\n"),
    ("digit 2", b"1,2,1,2\n2\n"),
    ("digit 9", b"1,2,1,2\n9\n"),
    ("digit over 1, no set gives the rest", b"1,1,1,3\n012\n"),
    ("no set gives it", b"1,1,1,2\n01\n"),
]
TABLES = [
    ("clean", b"1,2,1,2\n1\n"),
    ("clean tile", b"2,4,1,8\n11111111\n"),
    ("one day", b"2,1,1,1\n00\n"),
    ("tile, day 4", b"2,4,1,4\n0110\n"),
    ("tile, no set", b"2,4,1,4\n1110\n"),
    ("tree, day 2", b"3,1,1,2\n100\n"),
    ("tree, no set", b"3,1,1,2\n110\n"),
    ("tree, day 3 of 4", b"3,4,1,4\n" + table(3, 4, 4, [3]) + b"\n"),
    ("tree, day 7 of 8", b"3,4,1,8\n" + table(3, 4, 8, [7]) + b"\n"),
    ("figure, black", b"1,2,3,24\n" + table(1, 2, 24, [16]) + b"\n"),
    ("figure, tile", b"2,16,2,64\n" + table(2, 16, 64, [19, 20, 27]) + b"\n"),
    ("figure, tree", b"3,2,1,16\n" + table(3, 2, 16, [4, 7, 10]) + b"\n"),
    ("tree of 14 days", b"3,2,1,14\n" + table(3, 2, 14, [4, 7, 10]) + b"\n"),
    ("N 256", b"1,256,1,256\n0\n"),
    ("F 64", b"1,4,64,256\n" + table(1, 4, 256, [200]) + b"\n"),
]
FIGURE = table(2, 16, 64, [19, 20, 27])
PASSED = [
    ("P 0", b"2,16,2,64,0\n" + FIGURE + b"\n"),
    ("P below the first listed day", b"2,16,2,64,16\n" + FIGURE + b"\n"),
    ("P is D - F*N", b"2,16,2,64,32\n" + FIGURE + b"\n"),
    ("P above the listed days", b"2,16,2,64,48\n" + FIGURE + b"\n"),
    ("P is the day before the first listed", b"3,1,1,4,2\n" + table(3, 1, 4, [3]) + b"\n"),
    ("P is the first listed day", b"3,1,1,4,3\n" + table(3, 1, 4, [3]) + b"\n"),
    ("P in the example", b"2,4,1,8,4\n11110010\n"),
    ("P 0 in the example", b"2,4,1,8,0\n11110010\n"),
    ("clean with P", b"2,4,1,8,4\n11111111\n"),
    ("clean with P 0", b"1,2,1,2,0\n1\n"),
    ("P above, black", b"1,2,3,24,22\n" + table(1, 2, 24, [16]) + b"\n"),
    ("P is D", b"2,16,2,64,64\n" + FIGURE + b"\n"),
    ("P over D", b"2,16,2,64,80\n" + FIGURE + b"\n"),
    ("P no multiple of N", b"2,16,2,64,24\n" + FIGURE + b"\n"),
    ("P one below D", b"2,16,2,64,63\n" + FIGURE + b"\n"),
    ("P one below D, N 1", b"1,1,1,4,3\n1110\n"),
    ("P 256", b"2,4,1,8,256\n11110010\n"),
    ("P 257", b"2,4,1,8,257\n11110010\n"),
    ("five digits in P", b"2,4,1,8,12345\n11110010\n"),
    ("five digits in P, a multiple of N", b"2,4,1,8,99996\n11110010\n"),
    ("six digits in P", b"2,4,1,8,100000\n11110010\n"),
    ("leading zero in P", b"2,4,1,8,04\n11110010\n"),
    ("double zero in P", b"2,4,1,8,00\n11110010\n"),
    ("letter in P", b"2,4,1,8,4a\n11110010\n"),
    ("space before P", b"2,4,1,8, 4\n11110010\n"),
    ("minus before P", b"2,4,1,8,-4\n11110010\n"),
    ("six fields", b"2,4,1,8,4,4\n11110010\n"),
    ("six fields, the last empty", b"2,4,1,8,4,\n11110010\n"),
    ("six fields, the fifth empty", b"2,4,1,8,,4\n11110010\n"),
    ("empty fifth field", b"2,4,1,8,\n11110010\n"),
    ("three fields, table of four", b"2,4,1\n11110010\n"),
    ("P is D, scheme 9", b"9,4,1,8,8\n1\n"),
    ("P is D, N 3", b"2,3,1,8,8\n1\n"),
    ("P is D, F 65", b"2,4,65,8,8\n1\n"),
    ("P over D, D no multiple", b"2,4,1,6,8\n1\n"),
    ("P 0, D 0", b"2,4,1,0,0\n\n"),
    ("P is D, D over 256", b"2,4,1,257,257\n1\n"),
    ("P is D, extra digit", b"2,4,1,8,8\n111100101\n"),
    ("P is D, missing digit", b"2,4,1,8,8\n1111001\n"),
    ("P is D, digit over 1", b"2,4,1,8,8\n11112010\n"),
    ("P is D, no set gives it", b"2,4,1,8,8\n11111110\n"),
    ("P, extra digit", b"2,4,1,8,4\n111100101\n"),
    ("P, missing digit", b"2,4,1,8,4\n1111001\n"),
    ("P, digit over 1", b"2,4,1,8,4\n11112010\n"),
    ("P, no set gives it", b"2,4,1,8,4\n11111110\n"),
]
# a name, a first line, a digit and how often it stands in the second line
LONG = [
    ("D 256", b"1,1,1,256\n", b"1", 256),
    ("D 256, all days", b"1,1,1,256\n", b"0", 256),
    ("D 257", b"1,1,1,257\n", b"1", 257),
    ("tree of 256 days", b"3,1,1,256\n", b"1", 758),
    ("tree of 256 days, all", b"3,1,1,256\n", b"0", 758),
    ("tree of 256 days, one digit less", b"3,1,1,256\n", b"1", 757),
    ("tree of 256 days, one digit more", b"3,1,1,256\n", b"1", 759),
    ("1024 bytes", b"9,1,1,1\n", b"1", 1015),
    ("1025 bytes", b"9,1,1,1\n", b"1", 1016),
    ("1026 bytes", b"9,1,1,1\n", b"1", 1017),
]


def texts():
    """Every name and text."""
    long = [(name, head + digit * count + b"\n") for name, head, digit, count in LONG]
    return FORM + FIELDS + ORDER + TABLES + long + PASSED


if __name__ == "__main__":
    for name, text in texts():
        if sys.argv[1] == "stdin":
            sys.stdout.buffer.write(name.encode() + b"#" + text + b"#")
        else:
            sys.stdout.buffer.write(name.encode() + b"\n" + readtable(text))
