// The 8b/10b code: bits a to j of a character at a disparity, a in front, and in front of them whether the disparity
// after them is positive. A character is nine bits: whether it is special, and its byte.
function [10:0] lane_encode(input [8:0] character, input positive);
  reg a, b, c, d, e, f, g, h, k, l22, l40, l04, l13, l31, d24, heavy, light, turn, between, seven, after;
  reg [5:0] six;
  reg [3:0] four;
  begin
    {k, h, g, f, e, d, c, b, a} = character;
    l22 = (a & b & ~c & ~d) | (c & d & ~a & ~b) | ((a ^ b) & (c ^ d));
    l40 = a & b & c & d;
    l04 = ~(a | b | c | d);
    l13 = ((a ^ b) & ~c & ~d) | ((c ^ d) & ~a & ~b);
    l31 = ((a ^ b) & c & d) | ((c ^ d) & a & b);
    d24 = e & d & ~c & ~b & ~a;
    six = {a, (b & ~l40) | l04, l04 | c | d24, d & ~(a & b & c), (e | l13) & ~d24,
           (l22 & ~e) | (e & ~d & ~c & ~(a & b)) | (e & l40) | (k & e & d & c & ~b & ~a) | (e & ~d & c & ~b & ~a)};
    heavy = k | (e & ~l22 & ~l13);
    light = d24 | (~e & ~l22 & ~l31);
    turn = positive ? heavy | (~e & ~d & c & b & a) : light;
    six = six ^ {6{turn}};
    between = positive ^ (heavy | light);
    seven = f & g & h & (k | (positive ? ~e & d & l31 : e & ~d & l13));
    four = {f & ~seven, g | ~(f | g | h), h, (~h & (f ^ g)) | seven};
    turn = between ? f & g : ~(f | g) | (k & (f ^ g));
    four = four ^ {4{turn}};
    after = between ^ (~(f | g) | (f & g & h));
    lane_encode = {after, six, four};
  end
endfunction
