@0xd1e2f3a4b5c6d703;
# Names that are words of languages, or of generated code.
struct Self { x @0 :UInt8; }
struct Super { x @0 :UInt8; }
struct Crate { x @0 :UInt8; }
struct Vec { x @0 :List(Vec); }
struct String { x @0 :List(Text); }
struct Box { x @0 :Box; }
struct Some { x @0 :Some; } struct None { x @0 :None; } struct Ok { x @0 :UInt8; } struct Err { x @0 :UInt8; }
struct Iterator { x @0 :UInt8; } struct Send { x @0 :UInt8; } struct Sync { x @0 :UInt8; } struct Sized { x @0 :UInt8; }
struct Copy { x @0 :UInt8; } struct Clone { x @0 :UInt8; } struct Debug { x @0 :UInt8; } struct PartialEq { x @0 :UInt8; }
struct Eq { x @0 :UInt8; } struct Default { x @0 :UInt8; } struct From { x @0 :UInt8; } struct Into { x @0 :UInt8; }
struct Typed { x @0 :UInt8; } struct Lazy { x @0 :UInt8; } struct Sound { x @0 :UInt8; } struct Meter { x @0 :UInt8; }
struct Lists { x @0 :UInt8; } struct Pointer { x @0 :AnyPointer; } struct Builder { x @0 :UInt8; }
struct Value { x @0 :Text; } struct WhichValue { union { x @0 :UInt8; y @1 :Value; } } struct StructType { x @0 :UInt8; } struct Message { x @0 :UInt8; }
struct Std { x @0 :UInt8; } struct Alloc { x @0 :UInt8; } struct CapnpLayout { x @0 :UInt8; } struct Str { x @0 :Text; } struct U8 { x @0 :UInt8; }
struct Char { x @0 :UInt8; } struct F32 { x @0 :Float32; } struct Usize { x @0 :UInt8; } struct I64 { x @0 :Int64; }
struct FooBar { x @0 :UInt8; } struct FOOBar { x @0 :UInt8; } struct FooBAR { x @0 :UInt8; } struct Foobar { x @0 :UInt8; }
struct Outcome { x @0 :UInt8; } struct Checked { x @0 :UInt8; } struct Error { x @0 :UInt8; } struct Limits { x @0 :UInt8; } struct Struct { x @0 :UInt8; } struct StructBuilder { x @0 :UInt8; }
struct Unknown { union { unknown @0 :UInt8; other @1 :Text; } }
struct Within { struct List { x @0 :UInt8; y @1 :List; } l @0 :List; struct Text { t @0 :Text; } t @1 :Text; struct Data { d @0 :Data; } d @2 :Data; struct Bool { b @0 :Bool; } b @3 :Bool; struct Void { v @0 :Void; } v @4 :Void; struct UInt8 { u @0 :UInt8; } u @5 :UInt8; enum AnyPointer { a @0; } a @6 :AnyPointer; }
struct Text2 { x @0 :UInt8; } struct A1B2 { a1b2 @0 :UInt8; a1B2 @1 :UInt8; aB12 @2 :UInt8; }
enum Option { some @0; none @1; option @2; self @3; unknown @4; }
enum Result { ok @0; err @1; result @2; isOk @3; }
enum Variants { variantA @0; variantB @1; variantC @2; variantsD @3; variants @4; }
enum Letters { a @0; aA @1; aAa @2; aaa @3; aAA @4; }
enum One { one @0; }
enum HTTPCode { ok @0; notFound @1; }
enum IO { read @0; write @1; }
enum Keyword { abstract @0; as @1; async @2; await @3; become @4; box @5; break @6; const @7; continue @8; crate @9; do @10; dyn @11; else @12; enum @13; extern @14; false @15; final @16; fn @17; for @18; if @19; impl @20; in @21; let @22; loop @23; macro @24; match @25; mod @26; move @27; mut @28; override @29; priv @30; pub @31; ref @32; return @33; self @34; static @35; struct @36; super @37; trait @38; true @39; try @40; type @41; typeof @42; unsafe @43; unsized @44; use @45; virtual @46; where @47; while @48; yield @49; gen @50; raw @51; safe @52; auto @53; union @54; macroRules @55; }
struct Words {
  abstract @0 :UInt8; as @1 :Text; async @2 :Text; await @3 :UInt8; become @4 :Bool; box @5 :Box; break @6 :Keyword; const @7 :Data; continue @8 :Text; crate @9 :Crate; do @10 :Int16; dyn @11 :List(Text);
  else @12 :Text; enum @13 :Keyword; extern @14 :Text; false @15 :Bool; final @16 :Text; fn @17 :Text; for @18 :Text; if @19 :Text; impl @20 :Text; in @21 :Text; let @22 :Text; loop @23 :Text; macro @24 :Text;
  match @25 :Text; mod @26 :Text; move @27 :Text; mut @28 :Text; override @29 :Text; priv @30 :Text; pub @31 :Text; ref @32 :Text; return @33 :Text; self @34 :Self; static @35 :Text; struct @36 :Struct; super @37 :Super;
  trait @38 :Text; true @39 :Bool; try @40 :Text; type @41 :Text; typeof @42 :Text; unsafe @43 :Text; unsized @44 :Text; use @45 :Text; virtual @46 :Text; where @47 :Text; while @48 :Text; yield @49 :Text; gen @50 :Text;
  # C and C++
  asm @51 :UInt8; bool @52 :Bool; case @53 :UInt8; catch @54 :Text; char @55 :Int8; class @56 :Text; default @57 :UInt8; delete @58 :Text; double @59 :Float64; explicit @60 :Text; export @61 :Text; float @62 :Float32; friend @63 :Text; goto @64 :Text; inline @65 :Text; int @66 :Int32; long @67 :Int64; namespace @68 :Text; new @69 :Text; operator @70 :Text; private @71 :Text; protected @72 :Text; public @73 :Text; register @74 :Text; restrict @75 :Text; short @76 :Int16; signed @77 :Int8; sizeof @78 :UInt32; switch @79 :Text; template @80 :Text; this @81 :Text; throw @82 :Text; typedef @83 :Text; typeid @84 :UInt64; typename @85 :Text; unsigned @86 :UInt8; using @87 :Text; void @88 :Void; volatile @89 :Text; wchar @90 :Text; and @91 :Bool; or @92 :Bool; not @93 :Bool; xor @94 :Bool; bitand @95 :Bool; compl @96 :Bool; null @97 :Void; nullptr @98 :Void; errno @99 :Int32; stdin @100 :Text; main @101 :Text; 
  # generated code
  get @102 :Text; has @103 :Text; set @104 :Text; init @105 :Text; open @106 :Text; build @107 :Text; copy @108 :Text; which @109 :Text; list @110 :Text; builder @111 :Text; root @112 :Text; check @113 :Text; refused @114 :Text; reader @115 :Text; value @116 :Text; arena @117 :Text; limiter @118 :Text; lim @119 :Text; place @120 :Text; table @121 :Text; row @122 :Text; size @123 :Text; edit @124 :Text; of @125 :Text; it @126 :Text; message @127 :Text; index @128 :Text; count @129 :Text; text @130 :Text; data @131 :Text; any @132 :AnyPointer; made @133 :Text; built @134 :Text; typeId @135 :Text; getWhich @136 :Text; setWhich @137 :Text; hasWhich @138 :Text; initGet @139 :Text; nameBytes @140 :Text; name @141 :Text; editName @142 :Text; setName @143 :Text; hasName @144 :Text; initName @145 :Text; clone @146 :Text; cloneFrom @147 :Text; eq @148 :Text; ne @149 :Text; cmp @150 :Text; fmt @151 :Text; from @152 :Text; into @153 :Text; tryFrom @154 :Text; tryInto @155 :Text; toOwned @156 :Text; toString @157 :Text; borrow @158 :Text; borrowMut @159 :Text; drop @160 :Text; deref @161 :Text; add @162 :Text; sub @163 :Text; mul @164 :Text; div @165 :Text; neg @166 :Text; rem @167 :Text; shl @168 :Text; shr @169 :Text; indexMut @170 :Text; hash @171 :Text; next @172 :Text; intoIter @173 :Text; fromIter @174 :Text; fromStr @175 :Text; asRef @176 :Text; asMut @177 :Text; isEmpty @178 :Bool; isLong @179 :Bool; len @180 :UInt32; asText @181 :Text; toText @182 :Text; intoText @183 :Text; fromText @184 :Text; newBytes @185 :Data; intoResult @186 :Text; writeTo @187 :Text; withDefault @188 :Text; iter @189 :List(Text); typeId2 @190 :UInt64; kRoot @191 :UInt8; i @192 :UInt8; n @193 :UInt8; f @194 :UInt8; a @195 :UInt8; m @196 :UInt8; g @197 :UInt8; s @198 :UInt8; c @199 :UInt8; t @200 :UInt8;
  # Rattle and the prover
  ensures @201 :UInt8; requires @202 :UInt8; ghost @203 :UInt8; prove @204 :UInt8; old @205 :UInt8; now @206 :UInt8; returns @207 :UInt8; lemma @208 :UInt8; law @209 :UInt8; forall @210 :UInt8; exists @211 :UInt8; fun @212 :UInt8; then @213 :UInt8; with @214 :UInt8; rewrite @215 :UInt8; exact @216 :UInt8; syntax @217 :UInt8; record @218 :UInt8; ruleset @219 :UInt8; module @220 :UInt8; import @221 :UInt8; axiom @222 :UInt8; theorem @223 :UInt8; def @224 :UInt8; prop @225 :UInt8; sort @226 :UInt8; nat @227 :UInt8; zero @228 :UInt8; suc @229 :UInt8; nil @230 :UInt8; cons @231 :UInt8; sum @232 :UInt8; length @233 :UInt8; holds @234 :UInt8; model @235 :UInt8; assumption @236 :UInt8; ground @237 :UInt8; simp @238 :UInt8; grind @239 :UInt8; omega @240 :UInt8; ignoring @241 :UInt8; exactly @242 :UInt8; sections @243 :UInt8; alloc @244 :Text; rt @245 :Text; abbrev @246 :Text; goal @247 :Text; refl @248 :Text; rfl @249 :Text;
}
struct Unions {
  whichever @0 :UInt8;
  union { void @1 :Void; unknown @2 :Text; self @3 :Self; which2 @4 :UInt8; unionOf :union { a @5 :UInt8; which @6 :Text; } value @7 :List(Unions); group :group { which @8 :UInt8; union { b @9 :Text; c @10 :Unions; } } }
  struct Which { x @0 :UInt8; } struct Value { x @0 :UInt8; } struct Lazy { x @0 :UInt8; } struct WhichValue { x @0 :UInt8; } struct Reader { x @0 :UInt8; } struct UnionOf { x @0 :UInt8; } struct Group { x @0 :UInt8; }
  enum TYPE { size @0; root @1; typeId @2; } const size :UInt8 = 3; const root :UInt8 = 4; const typeId :Text = "x"; const table :List(UInt8) = [1];
}
const null :UInt8 = 0; const size :UInt8 = 1; const list :List(Text) = ["a"]; const self :Text = "s"; const int :Int32 = 1; const main :UInt8 = 3; const true :Bool = true; const fooBar :UInt8 = 9;
