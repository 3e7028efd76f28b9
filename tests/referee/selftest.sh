#!/bin/sh
# Tests the referee itself: a stand-in library passes without a fault, and is
# caught with each planted one. Run from this folder.
set -eu

dir=$(mktemp -d)
trap 'rm -rf "$dir"' EXIT
cc -O2 -Wall -Wextra -c mock/trace.c -o "$dir/trace.o"
ar rcs "$dir/libtrace.a" "$dir/trace.o"
export TRACE_LIB_DIR="$dir" CARGO_TARGET_DIR="$dir/target"
cargo test --release --quiet --lib
cargo build --release --quiet
referee="$dir/target/release/referee"

"$referee" gate
"$referee" stack
valgrind -q --error-exitcode=1 "$referee" memcheck

# number, subcommand, fault
while read -r number command fault; do
    case $command in
    valgrind) set -- valgrind -q --error-exitcode=1 "$referee" memcheck ;;
    *) set -- "$referee" "$command" ;;
    esac
    if TRACE_FAULT=$number "$@" >"$dir/log" 2>&1; then
        echo "MISSED: $fault"
        exit 1
    fi
    echo "caught: $fault"
    if [ -n "${SHOW:-}" ]; then cat "$dir/log"; fi
done <<'LIST'
1 gate Read takes the shortest first part
2 gate Read fakes the iterations after the first
3 gate Read says 8 early
4 gate Read says 11 early
5 gate Read makes up the record count
6 gate Compare is always 0
7 gate Tokens lists none
8 gate Spell calls every reading 12
9 gate Check passes all
10 gate Check refuses all
11 gate Read prefers Right
12 gate an empty iteration fits
13 gate Compare measures by the count of iterations
14 gate Read writes one byte more
15 gate Read touches the work area on refusal 10
16 valgrind fitting looks past the end of a reading
17 gate the start number loses its upper half
18 gate refusal 11 has the records as its detail
19 gate Compare says 14 before 12 of the second
20 stack fitting takes 8 KiB of stack at each level
21 gate Tokens goes inside a tagged record
22 gate Other holds its bounds
23 gate Other holds only what is below its bounds
24 gate Other holds only what is above its bounds
25 gate Other with equal bounds holds nothing
26 gate Other with bounds 0 and 255 holds every byte
27 gate Check refuses Other
28 gate Check passes kind 7
29 gate Check passes Other with a above b
30 gate Check refuses Other with bounds 0 and 255
31 gate Check takes a bound of Other for a child
32 gate Read writes Other's kind for Byte's
33 gate fitting takes any byte for Other
34 gate Tokens does not count Other's byte
35 gate Tokens lists an empty part
36 gate Tokens leaves out a part of one byte
37 gate Tokens moves the offset on by one at an empty part
38 gate Tokens lists the empty parts inside an empty part
39 gate Tokens counts the empty parts for refusal 11
40 notation Compile: Or binds tighter than Seq
41 notation Compile: Or groups to the right
42 notation Compile: a bare item takes two tags
43 notation Compile: a tag of two digits is taken
44 notation Compile: the tag 000 is taken
45 notation Compile: the tag 256 is taken
46 notation Compile: a range with p above q is taken
47 notation Compile: a missing left side of | is taken
48 notation Compile: the right side is written before the left
49 notation Compile: 16 comes before 15
50 notation Compile: refusal 11 has the records as its detail
51 notation Compile: the tag is on the child in place of the Star
52 notation Compile: a record number is off by one
53 notation Compile: the later bytes of the buffer are cleared
54 notation Compile: an item in parentheses takes a second tag
55 valgrind Compile: reads past the end of [a-
56 notation Compile: a backslash at the end is taken
57 notation Compile: a digit behind a tag is refused
58 notation Compile: an unescaped ] is taken
59 notation Compile: Seq groups to the right
60 notation Compile: a missing right side of | is taken
61 notation Compile: a text of 4,097 bytes is taken
62 notation Compile: a text of 4,096 bytes is refused
63 stack Compile: takes 1 KiB of stack at each parenthesis
64 notation Compile: a range with another byte than - is taken
65 notation Compile: a range with p equal to q is refused
66 notation Compile: ] or a backslash in brackets is refused
67 notation Compile: 11 comes before 16
68 notation Compile: the byte 0 is refused
69 notation Compile: the byte 10 is refused
70 notation Compile: a tag with another byte than a digit is taken
71 notation Compile: a backslash before a letter is refused
72 notation Compile: a parenthesis that the end leaves open is taken
73 notation Compile: the tag 255 is refused
74 notation Compile: - outside brackets is refused
75 notation Compile: two Stars become one
76 notation Compile: two Stars are refused
77 notation Compile: refusal 15 changes the buffer
78 notation Compile: 11 comes before 15
79 notation Compile: 255 records are refused
80 notation Compile: 256 records are taken
81 notation Compile: refusal 16 has the records as its detail
82 notation Compile: a buffer of exactly the table's length is refused
83 notation Compile: one byte more is written
84 order Order: every list is kept
85 order Order: the last token that breaks a pair is given
86 order Order: a first name behind the second counts
87 order Order: a pair with one name twice is kept
88 order Order: only the first pair is looked at
89 order Order: 65 pairs are taken
90 order Order: 64 pairs are refused
91 order Order: 18 comes before 17
92 order Order: bytes behind the last token are left out
93 order Order: the last pair is not looked at
94 order Order: only the token just before counts
95 order Order: a token that breaks a pair is counted from 1
96 order Order: the two names of a pair change places
97 order Order: of two first names for one second name one is enough
98 order Order: the first pair that is broken decides, not the first token
99 order Order: the offset is taken for the name
100 order Order: the second name 0 is passed over
101 order Order: the second name 255 is passed over
102 order Order: the first token is not looked at
103 order Order: the last token is not looked at
104 order Order: refusal 17 has the pairs as its detail
105 order Order: refusal 18 has the bytes over as its detail
106 order Order: a list without tokens is refused
107 order Order: a list without pairs is refused
108 order Order: a second name is not taken for a first name too
109 order Order: a token of length 0 is passed over
110 order Order: second names are compared by 7 bits
111 order Order: the number is given in 16 bits
112 order Order: pairs from the 33rd on are not looked at
113 valgrind Order: reads past the end of the list
114 valgrind Order: reads past the end of the pairs
115 stack Order: copies the list to the stack
116 order Order: changes the list
117 gate Read writes the length of the first part for the Seq
118 gate Read writes the count for the length of a Stars
119 gate a length one below is taken
120 gate a length one above is taken
121 gate a length modulo 256 is taken
122 gate the length of the first part is taken for the Seq's
123 gate the count is taken for the length of a Stars
124 gate lengths are looked at in the root alone
125 gate 255 is taken for the length of a reading of 256 bytes and more
126 gate 13 is given for a reading of 256 bytes and more
127 gate Compare does not look at the lengths and record numbers of the second
128 gate a wrong record number is taken
129 gate record numbers are looked at in the root alone
130 gate Read writes the length of the rest of the line
131 gate Read writes where the part ends for its length
132 gate Read writes the child's number for that of the Or
133 gate Read writes 0 for the length 255
134 gate refusal 11 of Read has half the bytes as its detail
135 gate lengths are compared by 7 bits
136 gate the length 0 is taken for any other
137 gate the length 255 is taken for any other
138 gate a lower length is taken
139 gate a higher length is taken
140 gate the length of a Void is not looked at
141 gate the length of a Byte is not looked at
142 gate the length of a Left is not looked at
143 gate the length of a Right is not looked at
144 gate the length of a Seq is not looked at
145 gate the length of a Stars is not looked at
146 gate the record number of a Void is not looked at
147 gate the record number of a Byte is not looked at
148 gate the record number of a Left is not looked at
149 gate the record number of a Right is not looked at
150 gate the record number of a Seq is not looked at
151 gate the record number of a Stars is not looked at
152 gate record numbers are compared by 7 bits
153 gate the record number 0 is taken for any other
154 gate the number of records is taken for a record number
155 gate the record number of a child is taken for its parent's
156 gate a lower record number is taken
157 gate a higher record number is taken
158 gate the number of another record of the same kind is taken
159 valgrind fitting looks at the record number past the end of a reading
160 gate a last record without its last byte is taken
161 gate Compare says 12 of the second with detail 0
162 gate lengths are added up as they are written
163 gate a part is read by the record that it names
164 gate Spell does not look at lengths and record numbers
165 gate Tokens does not look at lengths and record numbers
166 gate Compare does not look at the lengths and record numbers of the first
167 live Add: drops the byte at 254 bytes
168 live Take back: leaves the byte where it was
169 live the facts are those of the line before the call
170 live a line that no further byte completes is not told to be complete
171 live a Seq whose second part spells nothing is taken for one that can be completed
172 live refusal 10 goes by the bytes before the call
173 live Take back: 10 comes before 19
174 live Add: a refused one empties the line
175 live New: a refused one keeps the table
176 live Take back: leaves the count
177 live New: leaves what stood behind the table
178 live New: leaves the bytes of the line before
179 live New: a refused one leaves the struct
180 live New: a refused one has a table of 0 bytes
181 live New: a refused one keeps the start number
182 live Take back: clears one byte more
183 live a line that can get a reading is told to have one
184 live every line is told to get a reading
185 live only a line that has a reading is told to get one
186 live an Other that holds no byte is taken for one that does
187 live a Star of what spells nothing is taken for one that cannot be completed
188 live the second side of an Or does not complete a line
189 live Take back: removes the first byte
190 live Add: puts the byte in front
191 live Add: takes a byte at 255 and leaves it out
192 live Take back: 10 comes before 7
193 live a table_len over 1,020 is taken for 1,020
194 live the start number of a line filled by hand is not looked at
195 live the table of a line filled by hand is not checked
196 live Add: refusal 10 writes the byte
197 live Add: refusal 10 changes the work area
198 live one byte behind the work area is written
199 live Take back: asks for the work area of the bytes before the call
200 live a work area that is one byte short is taken
201 live Take back: 19 comes at 1 byte
202 live Take back: a line of 255 bytes is refused
203 live Add: 10 comes before 7
204 live Add: clears the byte behind the new one
205 live Add: clears the byte behind the table
206 live the last record is taken for the start record
207 live New: the result is 0
208 live the two facts change places
209 live the byte 0 is passed over
210 live bytes are compared by 7 bits
211 live a line of 255 bytes is told not to get a reading
212 live a line that has a reading is not told to get one
213 live every empty line is told to have a reading
214 live 7 comes before 1 to 6 and 9
215 live New: changes the table that it is lent
216 valgrind New: looks at the count that the struct held
217 valgrind New: reads past the end of the table
218 live New: leaves the count
219 live New: leaves out the last byte of a table of 1,020
220 live 10 is not looked for where the call leaves no byte
221 live New: the start number is 0
222 live 10 is not looked for at 255 bytes
223 live the work area is the records times the bytes and 1
224 live a work area of exactly the size is refused
225 stack Add: takes 8 KiB of stack for each byte
226 live Add: 10 in place of 7 at 255 bytes
227 live Take back: 7 in place of 19
228 live Take back: refusal 19 has a detail
229 live Take back: refusal 10 clears the byte
230 page Page: 256 lines are taken
231 page Page: 255 lines are refused
232 page Page: the page rules come before the line rules
233 page Page: 20 comes before the line rules
234 page Page: 20 comes before the page rules
235 page Page: 20 comes behind the lines
236 page Page: refusal 20 has the lines as its detail
237 page Page: refusal 20 names the line rules
238 page Page: a line's refusal has its own detail
239 page Page: lines are counted from 1
240 page Page: a line's refusal names the page
241 page Page: the line rules' refusal names the page rules
242 page Page: the page rules' refusal names the line rules
243 page Page: the page's refusal names a line
244 page Page: 11 of the page has a line's number as its detail
245 page Page: a result names a line
246 page Page: alike lines count one by one
247 page Page: a run counts twice
248 page Page: lines of one class are alike
249 page Page: lines with as many tokens are alike
250 page Page: the order of the tokens does not count
251 page Page: a line whose tokens begin as those of the one before is alike
252 page Page: offsets count too
253 page Page: the last tokens are not compared
254 page Page: names are compared by 7 bits
255 page Page: a line is compared with the one before the last
256 page Page: a line is compared with the first of the page
257 page Page: the class is the last token's name
258 page Page: a line without a token is left out
259 page Page: a line without a token has the class 255
260 page Page: lines without a token are not alike
261 page Page: a closing byte 10 opens a line
262 page Page: an empty page has an empty line
263 page Page: an empty page is refused
264 page Page: a last line without its byte 10 is left out
265 page Page: an empty line is left out
266 page Page: a byte 13 before the byte 10 is left out
267 page Page: a byte 0 ends a line
268 page Page: the last of 255 lines is left out
269 page Page: the last of 255 class bytes is left out
270 page Page: the tokens of all lines go to the first buffer
271 page Page: the tokens of all lines go to the second buffer
272 page Page: the token buffers change places
273 page Page: 11 is judged on the first buffer
274 page Page: 11 is judged on the shorter buffer
275 page Page: 11 is not looked for in the token buffers
276 page Page: 10 in place of 11 of the tokens
277 page Page: refusal 20 changes the reading buffer
278 page Page: the line rules' refusal changes the work area
279 page Page: the page rules' refusal changes a token buffer
280 page Page: 7 of a line comes before 8 of an earlier one
281 page Page: the last line that is refused is named
282 page Page: 10 of line 0 goes by the longest line
283 page Page: 10 of the page comes before the lines
284 page Page: 10 of the page goes by the lines in place of the runs
285 page Page: 8 of the page comes before 10
286 page Page: an empty page is not read by the page rules
287 page Page: a refusal of the page changes the buffer
288 page Page: the later bytes of the buffer are cleared
289 page Page: class bytes behind a 0 are left out
290 page Page: the class bytes are read by the line rules
291 page Page: the last record of the page rules is taken for the start record
292 page Page: the last record of the line rules is taken for the start record
293 page Page: the page's refusal names the page rules
294 page Page: 9 of the page rules comes behind the lines
295 page Page: 9 of the line rules comes behind the page rules
296 valgrind Page: reads past the end of the page
297 valgrind Page: reads past the end of the page rules' table
298 stack Page: takes 8 KiB of stack for each line
299 page Page: changes the page
300 page Page: the result is the number of class bytes
301 page Page: one byte behind the second token buffer is written
302 page Page: one byte behind the reading buffer is written
303 page Page: 255 lines, the last without its byte 10, are refused
304 page Page: a line of 255 bytes is refused
305 page Page: a line of 256 bytes is cut
306 page Page: a line that is refused is left out
307 page Page: a line that has no reading is taken for one without a token
308 page Page: lines are counted in 8 bits
309 page Page: the token buffer goes by the run in place of the line
310 page Page: 10 of the page goes by the records of the line rules
311 page Page: 11 of a line's reading is judged on the page's buffer too
312 page Page: the readings of the lines go to the page's buffer
313 apart Apart: no alternatives are seen to be apart
314 apart Apart: all alternatives are
315 apart Apart: a Seq is looked at as an Or is
316 apart Apart: the empty line is not looked at
317 apart Apart: only first bytes are looked at
318 apart Apart: only last bytes are looked at
319 apart Apart: first and last bytes must both be others
320 apart Apart: the byte 255 is not looked at
321 apart Apart: the byte 0 is not looked at
322 apart Apart: bytes are compared by 7 bits
323 apart Apart: a Seq has the bytes of its near part alone
324 apart Apart: a Seq has the bytes of both parts
325 apart Apart: a Seq with a part that spells nothing has no bytes
326 apart Apart: a Star has no bytes
327 apart Apart: a Star does not spell the empty line
328 apart Apart: an Or has the bytes of its first alternative alone
329 apart Apart: an Or spells the empty line only if both alternatives do
330 apart Apart: a Seq spells the empty line if its first part does
331 apart Apart: Other has the bytes of a Range
332 apart Apart: Other with bounds 0 and 255 has every byte
333 apart Apart: a Range lacks its upper bound
334 apart Apart: the first alternative is held against itself
335 apart Apart: 0 and 1 change places
336 apart Apart: a yes is 2
337 apart Apart: the last record is taken for the one that is asked for
338 apart Apart: the record number loses its upper half
339 apart Apart: the number behind the last record is taken for the last one
340 apart Apart: the last record is refused
341 apart Apart: 9 comes before 2 to 6
342 apart Apart: refusal 9 has the record number as its detail
343 apart Apart: a child that is named twice is not refused
344 apart Apart: the alternatives of a tagged Or are never apart
345 apart Apart: other lengths are seen too
346 apart Apart: Nothing spells the empty line
347 apart Apart: Empty does not spell the empty line
348 apart Apart: last bytes are looked for at the start
349 valgrind Apart: reads past the end of the table
350 stack Apart: takes 8 KiB of stack at each level
351 apart Apart: changes the table
352 apart Apart: bytes from 128 on are not looked at
353 stack Apart: records deeper than 64 levels are passed over
354 apart Apart: the record number is taken by 8 bits
355 apart Apart: the highest bit of the record number is passed over
356 page Page: texts do not count
357 page Page: names do not count
358 page Page: of texts the lengths alone count
359 page Page: only the first text is compared
360 page Page: only the last text is compared
361 page Page: all bytes of the lines count
362 page Page: both texts are looked up in the line itself
363 page Page: both texts are looked up in the line before
364 page Page: the text of the line before is looked up at the offset of the line itself
365 page Page: the text of the line is looked up at the offset of the one before
366 page Page: texts are compared one behind the other, without their bounds
367 page Page: only the first byte of a text is compared
368 page Page: the last byte of a text is not compared
369 page Page: texts are compared up to the shorter length
370 page Page: the text of the line before is looked up one line too early
371 page Page: texts are compared by 7 bits
372 page Page: texts are compared up to a byte 0
373 page Page: a text that begins as that of the line before is the same
374 page Page: a text with which that of the line before begins is the same
375 page Page: bytes of a text behind the 64th are not compared
376 page Page: the last byte of a text of 255 is not compared
377 page Page: texts from the third on are not compared
378 page Page: the first text is not compared
379 page Page: lines of other lengths are not alike
380 page Page: the order of the texts does not count
381 valgrind Page: reads past the end of a text
382 page Page: lines without a token are alike only if they have the same bytes
383 page Page: texts are compared by their lengths and the sums of their bytes
384 page Page: texts are looked up from the start of the page
385 page Page: the first byte of a text is not compared
386 page Page: texts at other offsets are not compared
387 page Page: texts of other lengths are the same
LIST
