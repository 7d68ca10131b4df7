"""Writes the worked examples as lemmas that computing proves: python3 crates/capnp_model/tools/rows.py, then rt tidy in the crate."""
from pathlib import Path
OUT=Path(__file__).resolve().parent.parent/'proofs'
def by(t):
    out=[]
    for tok in t.replace('/',' ').split():
        if '*' in tok:
            b,k=tok.split('*'); out+= [int(b,16)]*int(k)
        elif tok[0]=='F' and len(tok)<=2 and tok!='FF': out+=[0]*4+[int(tok[1:]),0,0,0]
        else: out.append(int(tok,16))
    return out
def ints(b): return [int.from_bytes(bytes(b[i:i+8]),'little') for i in range(0,len(b),8)]
def w(t):
    b=by(t); assert len(b)%8==0,(t,len(b)); return ints(b)
def L(xs): return ' ∷ '.join([str(x) for x in xs]+['[]']) if xs else '[]'
def LL(segs): return ' ∷ '.join(['('+L(s)+')' for s in segs]+['[]'])
def seg(*ts): return '('+LL([w(t) for t in ts])+')'
def B(t): return '('+L(by(t))+')'
class F:
    def __init__(self,file,head): self.file=file; self.head=head; self.rows=[]
    def decl(self,name,unf,typ,proof='refl'):
        u=f'unfolding {unf}\n' if unf else ''
        self.rows.append(f'{name} : {typ}\n{u}{name} = {proof}\n')
    def save(self): (OUT/self.file).write_text(self.head+'\n'+'\n'.join(self.rows))
# ---- trees: sections are numbers
def num(ws): return sum(x<<(64*i) for i,x in enumerate(ws))
def kids(ts):
    r='none'
    for t in reversed(ts): r=f'({t} ▸ {r})'
    return r
def S(words,*ts): return f'(structure {len(words)} {num(words)} {kids(ts)})'
def PL(size,n,section): return f'(plain_list {size} {n} {section})'
def R(d,k,rws):
    r='no_elements'
    for (ws,ts) in reversed(rws): r=f'(element {num(ws)} {kids(ts)} {r})'
    return f'(struct_list {d} {k} {r})'
head='''-- Values of worked messages: their trees, costs, depths and canonical words.
use Rattle.std.proofs.Common.{◌≡◌, ℕ, refl, ◌+◌, ◌-◌, ◌*◌, ◌^◌, List, [], ◌∷◌, ◌++◌, Option, Some, None, true, false, length, replicate}
use Rattle.std.specs.Option.{option_map}
use Rattle.capnp_model.specs.Kinds.{OutOfBounds, MalformedFarPointer, WrongPointerKind, UnknownPointerType, NestingLimitExceeded}
use Rattle.capnp_model.specs.Faults.{faults_at}
use Rattle.capnp_model.specs.Segments.{Segments, root, place}
use Rattle.capnp_model.specs.Coverage.{covered, cover}
use Rattle.capnp_model.specs.Trees.{Tree, Trees, null, structure, plain_list, pointer_list, struct_list, capability, none, ◌▸◌, no_elements, element, depth, has_capability}
use Rattle.capnp_model.specs.Traversal.{tree_at, cost_at}
use Rattle.capnp_model.specs.Trimming.{trim}
use Rattle.capnp_model.specs.Encoding.{canonical_words}
use Rattle.capnp_model.specs.Canonical.{is_canonical_at, is_canonical_message}
use Rattle.capnp_model.specs.Sizes.{object_words, capability_count}
'''
V=F('ValueExamples.antt',head)
def tree(name,s,n,t): V.decl(name,'tree_at',f'tree_at {n} {s} root ≡ {t}')
def cost(name,s,n,c): V.decl(name,'cost_at',f'cost_at {n} {s} root ≡ {c}')
def canonical_words(name,t,words): V.decl(name,'canonical_words trim',f'canonical_words (trim {t}) ≡ {L(w(words))}')
def faults(name,s,n,*kinds): V.decl(name,'faults_at',f'faults_at {n} {s} root ≡ {L(kinds)}')
def dep(name,t,d): V.decl(name,None,f'depth {t} ≡ {d}')
tree('null_root',seg('00*8'),64,'Some null')
canonical_words('empty_struct_words','(structure 0 0 none)','fc ff ff ff 00 00 00 00')
t2=S([7])
tree('one_word_struct',seg('00 00 00 00 01 00 00 00 / 07 00*7'),64,'Some '+t2)
r4=seg('02 00 00 00 01 00 00 00','00 00 00 00 01 00 00 00 / 07 00*7')
tree('far_pointer',r4,64,'Some '+t2); cost('far_pointer_cost',r4,64,2); canonical_words('far_pointer_words',t2,'00 00 00 00 01 00 00 00 / 07 00*7')
r2=seg('06 00 00 00 01 00 00 00','02 00 00 00 02 00 00 00 / 00 00 00 00 01 00 00 00','07 00*7')
tree('double_far',r2,64,'Some '+t2); cost('double_far_cost',r2,64,3); dep('struct_depth',t2,1)
tree('empty_struct_in_pad',seg('06 00 00 00 01 00 00 00','02 00 00 00 02 00 00 00 / 00*8','07 00*7'),64,'Some '+S([]))
tree('far_pointer_in_pad',seg('06 00 00 00 01 00 00 00','02 00 00 00 02 00 00 00 / 02 00*7','07 00*7'),64,'None')
faults('far_pointer_in_pad_kind',seg('06 00 00 00 01 00 00 00','02 00 00 00 02 00 00 00 / 02 00*7','07 00*7'),64,'MalformedFarPointer')
tree('segment_not_there',seg('02 00 00 00 05 00 00 00'),64,'None'); faults('segment_not_there_kind',seg('02 00 00 00 05 00 00 00'),64,'OutOfBounds')
tree('byte_list',seg('01 00 00 00 12 00 00 00 / 41 42 00*6'),64,'Some '+PL(2,2,0x4241))
tree('byte_list_with_more_bits',seg('01 00 00 00 12 00 00 00 / 41 42 43 00*5'),64,'Some '+PL(2,2,0x4241))
t7=S([],PL(2,3,0x6968))
tree('text_field',seg('00 00 00 00 00 00 01 00 / 01 00 00 00 1a 00 00 00 / 68 69 00*6'),64,'Some '+t7)
canonical_words('text_field_words',S([0],PL(2,3,0x6968),'null'),'00 00 00 00 00 00 01 00 / 01 00 00 00 1a 00 00 00 / 68 69 00*6'); dep('text_field_depth',t7,2)
r11=seg('00 00 00 00 00 00 02 00 / 00*8 / 01 00 00 00 f8 ff ff ff')
tree('void_list',r11,64,'Some (structure 0 0 (null ▸ (plain_list 0 536870911 0 ▸ none)))'); cost('void_list_cost',r11,64,2+536870911)
r13=seg('00 00 00 00 00 00 01 00 / 01 00 00 00 27 00 00 00 / 08 00 00 00 01 00 01 00 / 05 00*7 / 00*8 / 06 00*7 / 00*8')
t13=S([],R(1,1,[([5],['null']),([6],['null'])]))
tree('struct_list_value',r13,64,'Some '+t13); cost('struct_list_cost',r13,64,6); dep('struct_list_depth',t13,2)
canonical_words('struct_list_words',t13,'00 00 00 00 00 00 01 00 / 01 00 00 00 17 00 00 00 / 08 00 00 00 01 00 00 00 / 05 00*7 / 06 00*7')
tree('too_deep',seg('00 00 00 00 00 00 01 00 / 01 00 00 00 1a 00 00 00 / 68 69 00*6'),1,'None')
t16=S(w('11*8 / 00*7 80 / 00*8'))
tree('trailing_zero_word',seg('00 00 00 00 03 00 00 00 / 11*8 / 00*7 80 / 00*8'),64,'Some '+t16); canonical_words('trailing_zero_word_trimmed',t16,'00 00 00 00 02 00 00 00 / 11*8 / 00*7 80')
t16b=S([],S(w('ee*8')),S([]))
tree('canonical_message',seg('00 00 00 00 00 00 02 00 / 04 00 00 00 01 00 00 00 / fc ff ff ff 00 00 00 00 / ee*8'),64,'Some '+t16b)
canonical_words('canonical_message_words',t16b,'00 00 00 00 00 00 02 00 / 04 00 00 00 01 00 00 00 / fc ff ff ff 00 00 00 00 / ee*8')
tree('no_root_word','([] ∷ [])',64,'None'); faults('no_root_word_kind','([] ∷ [])',64,'OutOfBounds'); tree('list_as_root',seg('01 00*7'),64,'Some '+PL(0,0,0))
tree('capability_as_root',seg('03 00*7'),64,'Some (capability 0)')
r20=seg('00 00 00 00 00 00 01 00 / 01 00 00 00 37 00 00 00 / 08 00 00 00 03 00 00 00 / 01 00*7 / 00*16 / 02 00*7 / 00*16')
t20=S([],R(3,0,[([1,0,0],[]),([2,0,0],[])]))
tree('wide_elements',r20,64,'Some '+t20); cost('wide_elements_cost',r20,64,8)
canonical_words('wide_elements_trimmed',t20,'00 00 00 00 00 00 01 00 / 01 00 00 00 17 00 00 00 / 08 00 00 00 01 00 00 00 / 01 00*7 / 02 00*7')
tR3=R(1,0,[([1],[]),([2],[]),([3],[])])
tree('widened_byte_list',seg('01 00 00 00 1f 00 00 00 / 0c 00 00 00 01 00 00 00 / 01 00*7 / 02 00*7 / 03 00*7'),64,'Some '+tR3)
canonical_words('widened_byte_list_words',R(1,1,[([1],['null']),([2],['null']),([3],['null'])]),'01 00 00 00 1f 00 00 00 / 0c 00 00 00 01 00 00 00 / 01 00*7 / 02 00*7 / 03 00*7')
tree('value_in_second_segment',seg('02 00 00 00 01 00 00 00','00 00 00 00 01 00 00 00 / 00 01 02 03 04 05 06 07'),64,'Some '+S(w('00 01 02 03 04 05 06 07')))
cyc=seg('00 00 00 00 00 00 01 00 / fc ff ff ff 00 00 01 00')
tree('cycle',cyc,64,'None'); tree('cycle_with_many_levels',cyc,2000,'None'); cost('cycle_cost',cyc,64,64)
sh=seg('00 00 00 00 00 00 02 00 / 04 00 00 00 01 00 00 00 / 00 00 00 00 01 00 00 00 / 07 00*7')
tree('shared_target',sh,64,'Some '+S([],t2,t2)); cost('shared_target_cost',sh,64,4)
canonical_words('shared_target_words',S([],t2,t2),'00 00 00 00 00 00 02 00 / 04 00 00 00 01 00 00 00 / 04 00 00 00 01 00 00 00 / 07 00*7 / 07 00*7')
e998='00 00 00 00 00 00 01 00 / 01 00 00 00 07 00 00 00 / 98 0f 00*6'
cost('many_empty_structs_cost',seg(e998),64,1000)
cost('one_empty_struct_more_cost',seg('00 00 00 00 00 00 01 00 / 01 00 00 00 07 00 00 00 / 9c 0f 00*6'),64,1001)
V.decl('many_empty_structs_stay','tree_at canonical_words trim',f'option_map (λ t. canonical_words (trim t)) (tree_at 64 {seg(e998)} root) ≡ Some ({L(w(e998))})')
faults('object_in_front_of_its_segment',seg('f8 ff ff ff 01 00 00 00'),64,'OutOfBounds')
faults('tag_of_another_form',seg('01 00 00 00 0f 00 00 00 / 01 00 00 00 01 00 00 00 / 00*8'),64,'WrongPointerKind')
faults('elements_past_their_words',seg('01 00 00 00 0f 00 00 00 / 08 00 00 00 01 00 00 00 / 00*8'),64,'OutOfBounds')
faults('far_pointer_in_a_short_pad',seg('02 00 00 00 01 00 00 00','02 00*7'),64,'MalformedFarPointer')
tree('empty_struct_in_a_short_pad',seg('02 00 00 00 01 00 00 00','00*8'),64,'Some '+S([]))
faults('struct_with_no_level',seg('00 00 00 00 01 00 00 00 / 07 00*7'),0,'NestingLimitExceeded'); faults('list_with_no_level',seg('01 00*7'),0,'NestingLimitExceeded'); faults('null_with_no_level',seg('00*8'),0)
faults('object_not_there',seg('00 00 00 00 01 00 00 00'),64,'OutOfBounds')
faults('pad_not_there',seg('12 00 00 00 00 00 00 00 / 00*8'),64,'OutOfBounds')
faults('segment_of_a_long_pad_not_there',seg('06 00 00 00 01 00 00 00','02 00 00 00 09 00 00 00 / 00 00 00 00 01 00 00 00'),64,'OutOfBounds')
faults('nothing_is_walked_below_an_object_not_there',seg('00 00 00 00 02 00 01 00 / 00*8 / 07 00*7'),64,'OutOfBounds')
faults('too_deep_kind',seg('00 00 00 00 00 00 01 00 / 01 00 00 00 1a 00 00 00 / 68 69 00*6'),1,'NestingLimitExceeded')
faults('cycle_kind',cyc,64,'NestingLimitExceeded')
faults('capability_with_a_further_bit',seg('07 00*7'),64,'UnknownPointerType')
faults('capability_with_a_further_bit_in_a_pad',seg('02 00 00 00 01 00 00 00','07 00*7'),64,'UnknownPointerType')
faults('capability_with_a_further_bit_in_a_long_pad',seg('06 00 00 00 01 00 00 00','02 00 00 00 02 00 00 00 / 07 00*7','07 00*7'),64,'UnknownPointerType')
faults('faults_in_the_order_of_reading',seg('00 00 00 00 00 00 03 00 / 02 00 00 00 05 00 00 00 / 00*8 / 07 00*7'),64,'OutOfBounds','UnknownPointerType')
faults('no_fault',sh,64)
def canonical(name,s,answer,what='message',at=''): V.decl(name,f'is_canonical_{what} tree_at has_capability canonical_words trim',f'is_canonical_{what} 64 {s}{at} ≡ {answer}')
canonical('trailing_zero_word_is_not_canonical',seg('00 00 00 00 03 00 00 00 / 11*8 / 00*7 80 / 00*8'),'false')
cm=seg('00 00 00 00 00 00 02 00 / 04 00 00 00 01 00 00 00 / fc ff ff ff 00 00 00 00 / ee*8')
canonical('message_is_canonical',cm,'true'); canonical('root_is_canonical',cm,'true','at',' root'); canonical('child_is_canonical',cm,'true','at',' (place 0 2)'); canonical('child_with_a_gap_is_not_canonical',cm,'false','at',' (place 0 1)')
canonical('trailing_zero_word_at_root_is_not_canonical',seg('00 00 00 00 03 00 00 00 / 11*8 / 00*7 80 / 00*8'),'false','at',' root')
second=seg('02 00 00 00 01 00 00 00','00 00 00 00 01 00 00 00 / 00 01 02 03 04 05 06 07')
canonical('value_in_second_segment_is_not_canonical',second,'false'); canonical('second_segment_is_canonical',second,'true','at',' (place 1 0)')
canonical('further_word_is_not_canonical',seg('00 00 00 00 01 00 00 00 / 07 00*7 / 63 00*7'),'false'); canonical('further_word_stays_out',seg('00 00 00 00 01 00 00 00 / 07 00*7 / 63 00*7'),'true','at',' root')
canonical('capability_is_not_canonical',seg('03 00*7'),'false')
text=seg('00 00 00 00 00 00 01 00 / 01 00 00 00 1a 00 00 00 / 68 69 00*6')
def measured(name,f,s,size): V.decl(name,f'tree_at {f}',f'option_map {f} (tree_at 64 {s} root) ≡ Some {size}')
measured('text_words','object_words',text,2); measured('text_capabilities','capability_count',text,0)
measured('wide_elements_words','object_words',r20,8); measured('shared_target_object_words','object_words',sh,4)
measured('claimed_words_of_no_element','object_words',seg('01 00 00 00 17 00 00 00 / 04 00 00 00 01 00 00 00 / 05 00*7 / 06 00*7'),2)
caps=seg('00 00 00 00 00 00 02 00 / 03 00*7 / 03 00 00 00 01 00 00 00')
measured('two_capabilities','capability_count',caps,2)
def covers(name,s,k,times): V.decl(name,'covered',f'cover 64 {s} root (place 0 {k}) ≡ {times}')
covers('shared_word_is_covered_twice',sh,3,2); covers('root_word_is_covered_once',sh,0,1)
covers('word_that_nothing_names',seg('00 00 00 00 01 00 00 00 / 07 00*7 / 63 00*7'),2,0)
tree('tag_without_room',seg('00 00 00 00 00 00 01 00 / 01 00 00 00 07 00 00 00 / 09 00*7'),64,'None')
for n,s in [('pointers',6),('words',5),('structs',7)]:
    V.decl(f'claimed_{n}','tree_at',f'tree_at 64 (((1 + 2 ^ 32 * {s} + 2 ^ 35 * (2 ^ 29 - 1)) ∷ []) ∷ []) root ≡ None')
V.decl('long_text','tree_at','option_map depth (tree_at 64 (((1 + 2 ^ 32 * 2 + 2 ^ 35 * 40000) ∷ replicate 5000 7) ∷ []) root) ≡ Some 1')
V.decl('long_text_again','tree_at canonical_words','option_map (λ t. length (canonical_words t)) (tree_at 64 (((1 + 2 ^ 32 * 2 + 2 ^ 35 * 40000) ∷ replicate 5000 7) ∷ []) root) ≡ Some 5001')
V.decl('chain_of_structs','tree_at','option_map depth (tree_at 64 ((replicate 60 (2 ^ 48) ++ (0 ∷ [])) ∷ []) root) ≡ Some 60')
V.decl('chain_of_structs_words','tree_at canonical_words','option_map (λ t. length (canonical_words t)) (tree_at 64 ((replicate 12 (2 ^ 48) ++ (0 ∷ [])) ∷ []) root) ≡ Some 13')
V.save()
# ---- streams
head='''-- Worked messages on streams, framed and packed.
use Rattle.std.proofs.Common.{◌≡◌, ℕ, refl, ◌-◌, ◌^◌, List, [], ◌∷◌, ◌++◌, Some, None, Ok, Err, length, take, replicate}
use Rattle.capnp_model.specs.Kinds.{Kind, InvalidNumberOfSegments, MessageTooLarge, FailedToFillTheWholeBuffer, MessageEndsPrematurely, PrematureEndOfPackedInput, PackedInputDidNotEndCleanlyOnASegmentBoundary}
use Rattle.capnp_model.specs.Bytes.{bytes_of_words}
use Rattle.capnp_model.specs.Packing.{packed, unpacked, unpacked_from}
use Rattle.capnp_model.specs.Messages.{message_at, frame_at, packed_at, flat_at, frame, packed_message}
use Rattle.capnp_model.specs.Spelling.{Frames, Packs}
'''
T=F('StreamExamples.antt',head)
FF='Err FailedToFillTheWholeBuffer'; PE='Err PrematureEndOfPackedInput'
def limit_of(limit): return 'None' if limit is None else f'(Some {limit})'
def m(name,form,limit,t,ans): T.decl(name,'message_at unpacked_from flat_at',f'{form}_at {limit_of(limit)} {B(t)} ≡ {ans}')
def text(name,relation,limit,t,segments): T.decl(name,'message_at unpacked_from',f'{relation} {limit_of(limit)} {B(t)} ({LL(segments)})')
m('half_a_word','frame',1000,'00*4',FF)
m('too_many_segments','frame',1000,'ff 01 00 00 00 00 00 00','Err InvalidNumberOfSegments')
m('too_many_words','frame',1,'F2','Err MessageTooLarge')
m('more_words_than_the_limit','frame',3,'F4','Err MessageTooLarge')
m('one_message_and_a_byte','frame',1000,'F1 / 00*8 / 09','Ok ((0 ∷ []) ∷ [], 9 ∷ [])')
m4='01 00 00 00 01 00 00 00 / 02 00 00 00 00 00 00 00 / 02 00 00 00 01 00 00 00 / 00 00 00 00 01 00 00 00 / 07 00*7'
text('two_segments','Frames',1000,m4,[w('02 00 00 00 01 00 00 00'),w('00 00 00 00 01 00 00 00 / 07 00*7')])
text('filling_of_any_bytes','Frames',1000,'01 00 00 00 01 00 00 00 / 00 00 00 00 09 08 07 06 / 00*8',[[0],[]])
b4=by(m4)
for k in range(0,40): T.decl(f'cut_after_{k}','message_at',f'frame_at (Some 1000) ({L(b4[:k])}) ≡ {FF}')
T.decl('three_segments_table',None,f'take 16 (frame ((1 ∷ []) ∷ [] ∷ (2 ∷ 3 ∷ []) ∷ [])) ≡ {L(by("02 00 00 00 01 00 00 00 / 00 00 00 00 02 00 00 00"))}')
T.decl('three_segments_length',None,'length (frame ((1 ∷ []) ∷ [] ∷ (2 ∷ 3 ∷ []) ∷ [])) ≡ 40')
T.decl('most_segments','message_at','frame_at (Some 1000) (frame (replicate 511 [])) ≡ Ok (replicate 511 [], [])')
T.decl('one_segment_too_many','message_at','frame_at (Some 1000) (frame (replicate 512 [])) ≡ Err InvalidNumberOfSegments')
def pk(name,words,t): T.decl(name,'packed',f'packed ({L(words)}) ≡ {L(by(t))}')
pk('packed_word',w('00 00 0c 00 00 22 00 00'),'24 0c 22')
T.decl('packed_zero_words','packed',f'packed (replicate 258 0) ≡ {L(by("00 ff 00 01"))}')
T.decl('unpacked_zero_words','unpacked_from',f'unpacked 258 {B("00 ff 00 01")} ≡ Ok (replicate 258 0, [])')
T.decl('packed_full_words','packed','packed (replicate 256 (2 ^ 64 - 1)) ≡ 255 ∷ (replicate 8 255 ++ 255 ∷ replicate 2040 255)')
pk('packed_run_of_full_words',w('01 02 03 04 05 06 07 08 / 01 02 03 04 05 06 07 00'),'ff 01 02 03 04 05 06 07 08 01 01 02 03 04 05 06 07 00')
text('packed_null','Packs',1000,'10 01 00 00',[[0]])
m('group_cut_short','packed',1000,'f0 01 02',PE)
m('run_past_its_piece','packed',1000,'00 01','Err PackedInputDidNotEndCleanlyOnASegmentBoundary')
text('marked_zero_byte','Packs',1000,'30 02 00 10 01 01 07',[w('00 00 00 00 01 00 00 00 / 07 00*7')])
m('packed_null_and_a_byte','packed',1000,'10 01 00 00 09','Ok ((0 ∷ []) ∷ [], 9 ∷ [])')
full='10 02 10 01 01 07'.split()
for k,a in [(1,PE),(2,FF),(3,PE),(4,PE),(5,PE)]: m(f'packed_cut_after_{k}','packed',1000,' '.join(full[:k]),a)
T.decl('packed_two_segments','packed message_at unpacked_from','packed_at (Some 10) (packed_message ((0 ∷ 0 ∷ []) ∷ (0 ∷ 7 ∷ []) ∷ [])) ≡ Ok ((0 ∷ 0 ∷ []) ∷ (0 ∷ 7 ∷ []) ∷ [], [])')
text('any_number_of_words','Frames',None,'F2 / 09 00*7 / 08 00*7',[[9,8]])
# flat slices
ME='Err MessageEndsPrematurely'
m('no_byte_at_all','flat',1000,'',ME)
m('half_a_table','flat',1000,'00*4',FF)
m('second_half_of_a_table_missing','flat',1000,'01 00 00 00 01 00 00 00',FF)
m('segments_missing','flat',1000,'F2',ME)
m('segments_cut_short','flat',None,'F2 / 00*15',ME)
m('too_many_words_in_a_slice','flat',1,'F2','Err MessageTooLarge')
m('a_message_and_a_byte_in_a_slice','flat',1000,'F1 / 00*8 / 09','Ok ((0 ∷ []) ∷ [], 9 ∷ [])')
T.save()
# ---- relays
def unpack_words(b,n,i):
    out=[]; first=True
    while len(out)<n:
        t=b[i]; i+=1; word=[]
        for k in range(8):
            if t>>k&1: word.append(b[i]); i+=1
            else: word.append(0)
        out.append(int.from_bytes(bytes(word),'little'))
        if t==0:
            k=b[i]; i+=1; out+=[0]*k
        elif t==255:
            k=b[i]; i+=1
            for _ in range(k): out.append(int.from_bytes(bytes(b[i:i+8]),'little')); i+=8
    return out,i
def parse(b,packed):
    msgs=[]; i=0
    def read(n,i):
        if packed: return unpack_words(b,n,i)
        return ints(b[i:i+8*n]),i+8*n
    while i<len(b):
        h,i=read(1,i); n=(h[0]&0xffffffff)+1
        more,i=read(n//2,i)
        sizes=([h[0]>>32]+[x for v in more for x in (v&0xffffffff,v>>32)])[:n]
        ws,i=read(sum(sizes),i); s=[]; k=0
        for z in sizes: s.append(ws[k:k+z]); k+=z
        msgs.append((s,b[i:]))
    return msgs
head='''-- Worked runs of a relay, from the bytes that come in to those that go out and the lines of the log.
use Rattle.std.proofs.Common.{◌≡◌, ℕ, refl, List, [], ◌∷◌, map, Ok, Err, Some, None, codes}
use Rattle.std.specs.Prelude.{pos}
use Rattle.std.specs.Fmt.{digits}
use Rattle.std.specs.Str.{is_utf8, chars}
use Rattle.capnp_model.specs.Kinds.{FailedToFillTheWholeBuffer, PrematureEndOfPackedInput, PackedInputDidNotEndCleanlyOnASegmentBoundary, InvalidNumberOfSegments, MessageTooLarge}
use Rattle.capnp_model.specs.Segments.{Segments, root}
use Rattle.capnp_model.specs.Trees.{Tree, null, structure, plain_list, struct_list, none, ◌▸◌, no_elements, element, has_capability}
use Rattle.capnp_model.specs.Traversal.{tree_at, cost_at}
use Rattle.capnp_model.specs.Trimming.{trim}
use Rattle.capnp_model.specs.Encoding.{canonical_words}
use Rattle.capnp_model.specs.Bytes.{bytes_of_words}
use Rattle.capnp_model.specs.Packing.{packed, unpacked, unpacked_from}
use Rattle.capnp_model.specs.Messages.{Reader, Writer, plain_words, message_at}
use Rattle.capnp_model.specs.Schemas.{Schema}
use Rattle.capnp_model.specs.Readings.{shape_record, read_child, read, record_of, record_by_shape}
use Rattle.capnp_model.specs.Printing.{print, record_text, on_one_line, indented}
use Rattle.capnp_model.specs.Calls.{Step, name, index, whole_number, text_value, message, Verb, get, set_to, init, initn, clear, Call}
use Rattle.capnp_model.specs.Groups.{group_fault, copied_record}
use Rattle.capnp_model.specs.Steps.{step, step_field}
use Rattle.capnp_model.specs.Edits.{edit, edit_field, cleared, group_writes}
use Rattle.capnp_model.specs.Accepted.{shape_in, schema_of}
use Rattle.capnp_model.specs.Answers.{Answer, Limits, edits, replies, value_within, opened_root, answer, IsAnswer}
use Rattle.capnp_model.specs.Runs.{End, finished, broken, IsRun}
use Rattle.capnp_model.proofs.ExampleSchemas.{example_nodes, newer_nodes}

call : List Step → Verb → Call
call p v = record { path = p; verb = v }

set_number : ℕ → Verb
set_number n = set_to (whole_number (pos n))

examples : Schema
examples = schema_of example_nodes

newer_examples : Schema
newer_examples = schema_of newer_nodes

abbrev limits : ℕ → ℕ → Limits
limits words nesting = record { words = Some words; nesting = pos nesting }

-- A run under the example schemas, with limits of words and levels.
Relays : Reader → Writer → ℕ → ℕ → ℕ → List Call → List ℕ → List ℕ → List ℕ → End → Type 0
Relays read write words nesting id calls bytes output log end =
    IsRun read write (Some words) (IsAnswer examples (λ x. x) id calls (limits words nesting)) bytes output log end

-- The answers to messages under the example schemas.
abbrev answers_to : ℕ → ℕ → ℕ → List Call → List Segments → List Answer
answers_to words nesting id calls messages = map (answer examples (λ x. x) id calls (limits words nesting)) messages
'''.replace('call : List','abbrev call : List').replace('set_number : ℕ','abbrev set_number : ℕ').replace('examples : Schema\nex','abbrev examples : Schema\nex').replace('newer_examples : Schema','abbrev newer_examples : Schema').replace('Relays : Reader','abbrev Relays : Reader').replace('newer_abbrev examples','newer_examples')
G=F('RelayExamples.antt',head)
UNF='message_at unpacked_from packed answer value_within opened_root tree_at cost_at canonical_words trim has_capability edits replies edit step record_of record_by_shape shape_record read_child read step_field edit_field digits is_utf8 chars lib.Utf8.encode print cleared group_writes group_fault copied_record schema_of shape_in'
def calls(cs): return '('+' ∷ '.join([f'call ({p}) ({v})' for p,v in cs]+['[]'])+')' if cs else '[]'
def nm(*ps): return ' ∷ '.join([(f'name (codes "{p}")' if isinstance(p,str) else f'index {p}') for p in ps]+['[]'])
def st(text): return '(codes "'+text.replace('\\','\\\\').replace('"','\\"').replace('\n','\\n')+'")'
def relay(name,id,cs,inp,out,log,form='ff',words=1000,nesting=64,end='finished',good=None):
    rd='unpacked' if form[0]=='p' else 'plain_words'; wr='packed' if form[1]=='p' else 'bytes_of_words'
    b=by(inp); g=by(good) if good is not None else b
    msgs=parse(g,form[0]=='p'); rest=b[len(g):]
    ms=' ∷ '.join(['('+LL(s)+')' for s,_ in msgs]+['[]'])
    begins='refl'
    for s,r in reversed(msgs): begins=f'({L(r+rest)}, refl, {begins})'
    answers=f'answers_to {words} {nesting} {id} {calls(cs)} ({ms})'
    answered='tt'
    for _ in msgs: answered=f'(refl, {answered})'
    ends='refl' if end=='finished' else '((λ e. absurd (cc e)), refl)'
    G.decl(name,UNF,f'Relays {rd} {wr} {words} {nesting} {id} {calls(cs)} ({L(b)}) ({L(by(out))}) {st(log) if log else "[]"} {end if end=="finished" else "("+end+")"}',
      f'record {{ messages = {ms}; rest = {L(rest)}; begins = {begins}; answers = {answers}; answered = {answered}; writes = refl; logs = refl; ends = {ends} }}')
I1='F1 / 00*8'; O1='F1 / fc ff ff ff 00 00 00 00'; O2='F2 / 00 00 00 00 01 00 00 00 / 07 00*7'
seta7=[(nm('a'),'set_number 7')]
def wr(more=''): return f'message 1 written{more}\n'
relay('null_becomes_the_empty_struct',1,[],I1,O1,wr())
relay('a_number_is_set',1,seta7,I1,O2,wr('; done'))
relay('packed_number_is_set',1,seta7,'10 01 00 00','10 02 10 01 01 07',wr('; done'),form='pp')
relay('far_pointer_is_gone',1,[],m4,O2,wr())
relay('unnamed_word_is_kept',1,seta7,'F3 / 00 00 00 00 02 00 00 00 / 01 00*7 / 63 00*7','F3 / 00 00 00 00 02 00 00 00 / 07 00*7 / 63 00*7',wr('; done'))
relay('a_field_is_cleared',1,[(nm('a'),'clear')],O2,O1,wr('; done'))
relay('a_text_is_set_and_read',1,[(nm('t'),'set_to (text_value (codes "hi"))'),(nm('t'),'get')],I1,'F3 / 00 00 00 00 00 00 01 00 / 01 00 00 00 1a 00 00 00 / 68 69 00*6',wr('; done; "hi"'))
U8='F2 / 00 00 00 00 01 00 00 00 / 07 00*7'
relay('another_member_becomes_active',3,[(nm('v'),'set_number 9'),(nm('u'),'get')],U8,'F2 / 00 00 00 00 01 00 00 00 / 09 00 01 00 00 00 00 00',wr('; done; refused InactiveMember'))
U9='F2 / 00 00 00 00 01 00 00 00 / 07 00 02 00 00 00 00 00'
relay('unknown_member_stays',3,[(nm('u'),'get')],U9,U9,wr('; refused InactiveMember'))
relay('capability_is_refused',1,[],'F1 / 03 00*7 / F1 / 00*8',O1,'message 1 refused: value\nmessage 2 written\n')
relay('costly_void_list_is_refused',1,[],'F3 / 00 00 00 00 00 00 02 00 / 00*8 / 01 00 00 00 f8 ff ff ff','','message 1 refused: value\n')
relay('cut_first_word_ends_the_run',1,[],'00*4','','',end='broken FailedToFillTheWholeBuffer',good='')
relay('nothing_comes_in',1,[],'','','')
relay('struct_list_is_trimmed',2,[],'F7 / 00 00 00 00 00 00 01 00 / 01 00 00 00 27 00 00 00 / 08 00 00 00 01 00 01 00 / 05 00*7 / 00*8 / 06 00*7 / 00*8','F5 / 00 00 00 00 00 00 01 00 / 01 00 00 00 17 00 00 00 / 08 00 00 00 01 00 00 00 / 05 00*7 / 06 00*7',wr())
relay('edited_value_is_too_deep',1,[(nm('t'),'set_to (text_value (codes "hi"))')],I1,'','message 1 refused: depth\n',nesting=1)
relay('packed_group_is_cut',1,[],'f0 01 02','','',form='pp',end='broken PrematureEndOfPackedInput',good='')
relay('packed_run_is_too_long',1,[],'00 01','','',form='pp',end='broken PackedInputDidNotEndCleanlyOnASegmentBoundary',good='')
relay('too_many_segments_end_the_run',1,[],'ff 01 00 00 00 00 00 00','','',end='broken InvalidNumberOfSegments',good='')
relay('too_many_words_end_the_run',1,[],'F2','','',words=1,end='broken MessageTooLarge',good='')
relay('trailing_zero_word_is_cut',1,[],'F4 / 00 00 00 00 03 00 00 00 / 11*8 / 00*7 80 / 00*8','F3 / 00 00 00 00 02 00 00 00 / 11*8 / 00*7 80',wr())
relay('unknown_name_is_refused',1,[(nm('zz'),'get')],I1,O1,wr('; refused FieldNotFound'))
relay('empty_segment_is_refused',1,[],'00*8 / F1 / 00*8',O1,'message 1 refused: value\nmessage 2 written\n')
relay('list_root_is_refused',1,[],'F1 / 01 00*7','','message 1 refused: root\n')
relay('element_is_set',2,[(nm('items',0),'set_to (message (structure 3 2381976568446569244354302716464634789893 none))')],'F9 / 00 00 00 00 00 00 01 00 / 01 00 00 00 37 00 00 00 / 08 00 00 00 03 00 00 00 / 01 00*7 / 00*16 / 02 00*7 / 00*16','F5 / 00 00 00 00 00 00 01 00 / 01 00 00 00 17 00 00 00 / 08 00 00 00 01 00 00 00 / 05 00*7 / 02 00*7',wr('; done'))
relay('default_is_read_and_overwritten',4,[(nm('n'),'get'),(nm('n'),'set_number 0'),(nm('n'),'get')],I1,'F2 / 00 00 00 00 01 00 00 00 / 05 00*7',wr('; 5; done; 0'))
relay('number_out_of_range_is_refused',3,[(nm('v'),'set_number 70000')],U8,U8,wr('; refused TypeMismatch'))
T23='F3 / 00 00 00 00 00 00 01 00 / 01 00 00 00 12 00 00 00 / 68 69 00*6'
relay('unreadable_text_is_refused',1,[(nm('t'),'get')],T23,T23,wr('; refused UnreadablePointer'))
relay('index_out_of_range_is_refused',2,[(nm('items',0),'get')],I1,O1,wr('; refused IndexOutOfRange'))
relay('group_is_cleared',5,[(nm('g'),'clear')],'F2 / 00 00 00 00 01 00 00 00 / 01 00 02 00 03 00 00 00','F2 / 00 00 00 00 01 00 00 00 / 00 00 00 00 03 00 00 00',wr('; done'))
relay('group_is_set',5,[(nm('g'),'set_to (message (structure 1 524297 none))')],'F2 / 00 00 00 00 01 00 00 00 / 01 00 02 00 03 00 00 00','F2 / 00 00 00 00 01 00 00 00 / 09 00 08 00 03 00 00 00',wr('; done'))
relay('new_list_is_trimmed',2,[(nm('items'),'initn 2')],I1,'F3 / 00 00 00 00 00 00 01 00 / 01 00 00 00 07 00 00 00 / 08 00*7',wr('; done'))
relay('element_of_new_list_is_set',2,[(nm('items'),'initn 2'),(nm('items',1,'a'),'set_number 6')],I1,'F5 / 00 00 00 00 00 00 01 00 / 01 00 00 00 17 00 00 00 / 08 00 00 00 01 00 00 00 / 00*8 / 06 00*7',wr('; done; done'))
relay('field_of_null_child_is_set',7,[(nm('child','a'),'get'),(nm('child','a'),'set_number 7'),(nm('child','a'),'get')],I1,'F3 / 00 00 00 00 00 00 01 00 / 00 00 00 00 01 00 00 00 / 07 00*7',wr('; 0; done; 7'))
relay('marked_zero_byte_is_gone',1,[],'30 02 00 10 01 01 07','10 02 10 01 01 07',wr(),form='pp')
relay('framed_to_packed',1,seta7,I1,'10 02 10 01 01 07',wr('; done'),form='fp')
relay('packed_to_framed',1,seta7,'10 01 00 00',O2,wr('; done'),form='pf')
relay('cycle_is_refused',1,[],'F2 / 00 00 00 00 00 00 01 00 / fc ff ff ff 00 00 01 00 / F1 / 00*8',O1,'message 1 refused: value\nmessage 2 written\n')
relay('cycle_is_refused_at_many_levels',1,[],'F2 / 00 00 00 00 00 00 01 00 / fc ff ff ff 00 00 01 00','','message 1 refused: value\n',nesting=2000)
relay('shared_target_is_copied_twice',1,[],'F4 / 00 00 00 00 00 00 02 00 / 04 00 00 00 01 00 00 00 / 00 00 00 00 01 00 00 00 / 07 00*7','F5 / 00 00 00 00 00 00 02 00 / 04 00 00 00 01 00 00 00 / 04 00 00 00 01 00 00 00 / 07 00*7 / 07 00*7',wr(),words=4)
i998='F3 / '+e998
relay('many_empty_structs_are_kept',1,[],i998,i998,wr())
relay('one_empty_struct_too_many_is_refused',1,[],'F3 / 00 00 00 00 00 00 01 00 / 01 00 00 00 07 00 00 00 / 9c 0f 00*6','','message 1 refused: value\n')
relay('bad_tag_is_refused',1,[],'F3 / 00 00 00 00 00 00 01 00 / 01 00 00 00 07 00 00 00 / 09 00*7','','message 1 refused: value\n')
def show(name,schema,id,t,style,text): G.decl(name,UNF+' record_text',f'record_text {schema} (λ x. x) {style} {id} (record_of {schema} {id} (trim {t})) ≡ Some {st(text)}')
show('newer_schema_shows_the_kept_word','newer_examples',1,S([7,99]),'on_one_line','(a = 7, b = 99)')
show('text_is_shown','examples',1,t7,'on_one_line','(a = 0, t = "hi")')
show('new_member_is_shown','newer_examples',3,S([0x20007]),'on_one_line','(w = 7)')
show('struct_list_is_shown','examples',2,t13,'on_one_line','(items = [(a = 5), (a = 6)])')
show('struct_list_is_shown_on_lines','examples',2,t13,'(indented 0)','(\n  items = [\n    (\n      a = 5\n    ),\n    (\n      a = 6\n    )\n  ]\n)')
show('cleared_group_is_shown','examples',5,S([12884901888]),'on_one_line','(g = (x = 0, y = 0), z = 3)')
show('invalid_text_is_shown','examples',1,S([],PL(2,3,0xff68)),'on_one_line','(a = 0, t = <invalid utf-8: [104, 255]>)')
G.save()
