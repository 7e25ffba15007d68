# Reads what a command of a72 writes with --json, and writes the lines of its text that hold its numbers: python3 tests/texts_of_json.py COMMAND <JSON. The lines are those of the
# text to the letter, but for spaces at their ends; tests/json.sh looks for each in the text, and has the words that stand in no such line from here too.
import json
import sys

number = lambda text: int(text, 16) if isinstance(text, str) and text.startswith('0x') else int(text)


def answer(a):
    kind, n = a['kind'], lambda name: number(a[name])
    if kind == 'refused': return 'no %d' % a['check']
    if kind == 'done': return 'ok'
    if kind == 'value': return 'val %x' % n('value')
    if kind == 'no_address': return 'none'
    if kind == 'fault': return 'fault %x %02x' % (n('va'), n('status'))
    if kind == 'data_abort': return 'data %x %d %02x' % (n('va'), a['write'], n('status'))
    if kind == 'instruction_abort': return 'insn %x %02x' % (n('va'), n('status'))
    if kind == 'leaf': return 'leaf %x %x %d %d %d %d %d' % (n('pa'), n('permissions'), a['level'], a['attrindx'], a['sh'], a['ns'], a['global'])
    if kind == 'pair': return 'pair %x %x' % (n('first'), n('second'))
    if kind == 'counts': return 'counts %x:%016x' % (n('not_zero'), n('digest'))
    if kind == 'shared_page': return 'pair %x %x' % (n('first'), n('second'))
    if kind == 'no_shared_page': return 'none'
    if kind == 'bit': return 'bit %x %x' % (n('pa'), a['bit'])
    if kind == 'no_bit': return 'none'
    if kind == 'page_fault': return 'page %x %x %02x' % (n('window'), n('page'), n('status'))
    return kind


def core(c):
    n = lambda name: number(c[name])
    counts = c['counters']
    levels = ''.join(' l%d=%x:%x' % (k, number(level['hits']), number(level['walks'])) for k, level in enumerate(counts['levels']))
    sums = '%d:%016x'
    return ' | h=%x w=%x%s fl=%x dr=%x ep=%x bc=%d:%x lp=%x ap=%x el=%d um=%d as=%x gen=%x par=%x pc=%x R=%016x T=%s H=%s M=%016x' % (
        number(counts['hits']), number(counts['walks']), levels, n('flushes'), n('drops'), n('epoch'), c['broadcast']['kind'], number(c['broadcast']['operand']),
        n('last_pa'), n('abort_pa'), c['el'], c['unprivileged'], n('asid'), n('generation'), n('par'), n('pc'), n('registers'),
        sums % (c['entries']['count'], number(c['entries']['digest'])), sums % (c['hints']['count'], number(c['hints']['digest'])), n('ram'))


def rights(r):
    return '  '.join('%s %s' % (level.upper(), letters) for level, letters in r.items())


def asid(a):
    return ', every ASID' if a is None else ', ASID %x' % number(a)


def words(w):
    for name in 'fault', 'name':
        if name in w: yield '    ' + w[name]
    if 'taken' in w: yield '    taken to EL%d, PC %x' % (w['taken']['el'], number(w['taken']['pc']))
    for held in w['registers']:
        yield '    %s %016x%s' % (held['register'], number(held['value']), ': ' + held['meaning'] if 'meaning' in held else '')
        for k, attribute in enumerate(held.get('attributes', [])):
            yield '      Attr%d %02x: %s' % (k, number(attribute['value']), attribute['memory'])


def cache(c):
    yield 'entries of the cache: %d of 1024 are live' % c['live']
    head = '  slot  page              output'
    if c['live']: yield head
    for e in c['entries']:
        m = e['mapped']
        yield '  %4x  ' % e['slot'] + ('of no regime' if m is None else '%016x  %016x  %s, %s, level %d%s' % (number(m['va']), number(m['pa']), m['regime'], rights(m['rights']), m['level'], asid(m['asid'])))
    yield 'hints: %d of 513 are set' % c['set']
    if c['set']: yield head
    for h in c['hints']:
        slot = '    ' if h['slot'] is None else '%4x' % h['slot']
        yield '  %s  %016x  %016x  %s at EL%d' % (slot, number(h['va']), number(h['pa']), {'read': 'reads', 'write': 'writes', 'fetch': 'fetches'}[h['access']], h['el'])


def heading(d):
    if 'core_number' in d: yield 'core %x' % number(d['core_number'])


def run(documents):
    for d in documents:
        if 'line' not in d:
            yield from heading(d)
            yield from cache(d)
            continue
        reads = ' rd=%x' % number(d['reads']) if 'reads' in d else ''
        whose = 'core %x: ' % number(d['core_number']) if 'core_number' in d else ''
        yield '%d %s%s => %s%s%s' % (d['line'], whose, d['operation'], answer(d['answer']), reads, core(d['core']) if 'core' in d else '')
        if 'words' in d: yield from words(d['words'])


def told(t, by):
    if 'pa' in t: text = 'address %x' % number(t['pa'])
    elif 'status' in t: text = 'fault 0x%02x, %s' % (number(t['status']), t['fault'])
    else: text = 'no answer, check %d' % t['check']
    return text + by


BY = {'flat': ', with stage 1 off', 'walk': ', by a walk', 'entry': ', by an entry of the cache', 'hint': ', by a hint'}


def registers(r):
    n = lambda name: number(r[name]['value'])
    yield 'SCTLR      %016x  M=%d WXN=%d' % (n('sctlr'), r['sctlr']['m'], r['sctlr']['wxn'])
    t = r['tcr']
    if 'lower' in t:
        halves = ''.join('T%dSZ=%d TG%d=%s EPD%d=%d TBI%d=%d | ' % (k, h['tsz'], k, h['tg'], k, h['epd'], k, h['tbi']) for k, h in enumerate([t['lower'], t['upper']]))
        yield 'TCR        %016x  %sIPS=%d A1=%d AS=%d' % (n('tcr'), halves, t['ips'], t['a1'], t['as'])
    else:
        yield 'TCR        %016x  T0SZ=%d TG0=%s TBI=%d PS=%d' % (n('tcr'), t['t0sz'], t['tg0'], t['tbi'], t['ps'])
    for k in 'ttbr0', 'ttbr1':
        if k in r: yield '%s      %016x  ASID=%x base=%x' % (k.upper(), n(k), number(r[k]['asid']), number(r[k]['base']))
    if 'scr_ns' in r: yield 'SCR.NS=%d HCR.TGE=%d HCR.DC=%d' % (r['scr_ns'], r['hcr_tge'], r['hcr_dc'])


def steps(w):
    r = w['range']
    yield 'range      %s (TTBR%d) %016x, TxSZ %d, granule %d KiB, output of %d bits%s' % (
        r['half'], r['ttbr'], number(r['base']), r['txsz'], r['granule_kib'], r['output_bits'], ', walks disabled (EPD)' if r['walks_disabled'] else '')
    for v in w['levels']:
        desc = 'outside RAM' if v['descriptor'] is None else '%016x' % number(v['descriptor'])
        (kind, to), = v['to'].items()
        line = 'level %d    table %x[%x]  at %x  %s  ' % (v['level'], number(v['table']), v['index'], number(v['at']), desc)
        if kind == 'table':
            bits = ''.join(' %s=%d' % (text, to[name]) for name, text in [('xntable', 'XNTable'), ('uxntable', 'UXNTable'), ('pxntable', 'PXNTable')] if name in to)
            yield line + 'table at %x  APTable=%d%s NSTable=%d' % (number(to['at']), to['aptable'], bits, to['nstable'])
        elif kind == 'leaf':
            yield line + '%s, output %x%s' % (to['size'], number(to['pa']), ' outside RAM' if to['outside_ram'] else '')
            bits = ''.join(' %s=%d' % (name.upper(), to[name]) for name in ('xn', 'pxn', 'uxn') if name in to)
            yield '           AttrIndx=%d NS=%d AP=%d SH=%d AF=%d nG=%d%s' % (to['attrindx'], to['ns'], to['ap'], to['sh'], to['af'], to['ng'], bits)
        else:
            yield line + to['fault']
    if 'allowed' in w:
        yield 'rights     %s  for %s' % (rights(w['allowed']['rights']), 'every ASID' if w['allowed']['every_asid'] else 'its ASID alone')
    if 'not_begun' in w: yield 'start      %s: %s' % (w['not_begun']['fault'], w['not_begun']['why'])


def walkthrough(d, whom):
    yield '%s of %016x at EL%d%s: the regime is %s' % (d['access'], number(d['va']), d['el'], whom, d['regime'])
    yield from registers(d['registers'])
    if d['untagged'] != d['va']: yield 'untagged   %016x' % number(d['untagged'])
    if 'stage1_off' in d: yield 'stage 1 is off: ' + d['stage1_off']
    if 'walk' in d: yield from steps(d['walk'])
    if 'memory' in d:
        m = d['memory']
        yield 'memory     MAIR_EL%d.Attr%d is %02x: %s, %s' % (m['mair_el'], m['attr'], number(m['value']), m['memory'], m['sharing'])


def walk(documents):
    d, = documents
    yield from walkthrough(d, ', unprivileged' if d['unprivileged'] else '')
    yield 'walk now   ' + told(d['walk_now'], '')
    yield 'the core   ' + told(d['core'], BY[d['by']])
    yield d['verdict']
    yield 'descriptors read: %d' % d['reads']
    yield 'by the core: %d%s' % (number(d['core_reads']), BY[d['by']])
    assert d['agree'] == ('DIFFER' not in d['verdict'])


def flip(documents):
    d, = documents
    yield from walkthrough(d, ', ' + d['view'])
    yield 'walk now   ' + told(d['answer'], '')
    found = d['found']
    none = 'no single bit of RAM changes this answer'
    if found['kind'] == 'no_bit': yield none
    elif found['kind'] == 'no_descriptor': yield none + ': no descriptor is read'
    elif found['kind'] == 'outside_ram': yield none + ': the descriptor at %x lies outside RAM' % number(found['at'])
    else: yield 'level %d, descriptor at %x, bit %d (%s): %s becomes %s' % (found['level'], number(found['at']), found['bit'], found['field'], told(d['answer'], ''), told(found['becomes'], ''))


def share(thousandths, some):
    if thousandths is None: return '        -'
    cells = max((thousandths * 40 + 500) // 1000, some > 0)
    percent = '    <0.1' if thousandths == 0 and some else '%6d.%d' % (thousandths // 10, thousandths % 10)
    return '%s%%  %s' % (percent, '#' * cells + '.' * (40 - cells))


def counters(documents):
    d, = documents
    rows = [('EL%d' % k, row) for k, row in enumerate(d['levels'])] + [('all', d['all'])]
    width = 13 if max(number(row[k]) for name, row in rows[:4] for k in ('entries', 'walks')) < 2 ** 36 else 22
    for name, row in rows:
        entries, walks, reads = (number(row[k]) for k in ('entries', 'walks', 'reads'))
        end = '  modulo 2^64' if name == 'all' and d['modulo_2_64'] else share(row['walks_per_thousand'], walks)
        yield '  %s%*d%*d%13d%s' % (name, width, entries, width, walks, reads, end)
    yield 'flushes %d, pages dropped %d, epoch %d' % tuple(number(d[k]) for k in ('flushes', 'pages_dropped', 'epoch'))
    for name, verb, none in ('walks', 'walk', 'nothing was walked'), ('reads', 'read', 'no descriptor was read'):
        most = d[name + '_most']
        levels, count = ['EL%d' % k for k in most['el']], number(most['count'])
        if not levels: yield none
        else:
            line = ' and '.join(levels) + (' %ss most: %d' if len(levels) == 1 else ' %s most: each %d') % (verb, count)
            whole = name == 'reads' or not d['modulo_2_64']
            yield line + (' of %d' % number(d['all'][name]) if whole else '') + (' descriptors' if name == 'reads' else ' walks')


def reads(documents):
    d, = documents
    if d['all']['reads'] == 0:
        yield 'no descriptor was read'
        return
    for row in d['rows']:
        yield '  EL%d  %016x  %-6s%12d%13d%s' % (row['el'], number(row['va']), row['regime'], row['operations'], row['reads'], share(row['reads_per_thousand'], row['reads']))
    for what in 'others', 'all':
        row = d[what]
        if row['pages']: yield '  %-7s%10d pages      %12d%13d%s' % (what, row['pages'], row['operations'], row['reads'], share(row['reads_per_thousand'], row['reads']))


def audit(documents):
    d, = documents
    whose = lambda cause: ', core %x' % number(cause['core_number']) if 'core_number' in cause else ''
    line = lambda cause: 'line %d%s: %s' % (cause['line'], whose(cause), cause['text'])
    for f in d['findings']:
        yield 'STALE at ' + line(f['at'])
        yield '  address    %016x' % number(f['va'])
        yield '  the core   ' + told(f['core'], BY[f['by']])
        yield '  walk now   ' + told(f['walk_now'], '')
        kept = f['filled']
        if kept is None: continue
        yield '  filled     ' + line(kept['by'])
        yield '             page %x of %s to %x, %s, level %d%s' % (number(kept['va']) >> 12, kept['regime'], number(kept['pa']) >> 12, rights(kept['rights']), kept['level'], asid(kept['asid']))
        yield '  changed    ' + (line(kept['changed']) if kept['changed'] else 'by no line since')
        n = kept['invalidations']
        yield '  TLBI       ' + ('COVERED, AND KEPT, AT ' + line(kept['covering']) if kept['covering'] else ['none since', '1 since, which does not cover it'][n] if n < 2 else '%d since, none of which covers it' % n)
        if 'unheard' in kept: yield '  unheard    ' + line(kept['unheard'])
    assert d['stale'] == len(d['findings'])
    if d['stale'] == 0: yield 'no stale answer in %d accesses' % d['accesses']
    elif d['whole']: yield '%d stale in %d accesses' % (d['stale'], d['accesses'])
    else: yield 'stale at access %d; what comes after it was not carried out (--all: each)' % d['accesses']


def census(documents):
    d, = documents
    for row in d['ends']:
        end = row['end']
        text = 'flat, stage 1 is off' if 'flat' in end else end['fault'] if 'fault' in end else '%s   permissions %02x' % (rights(end['rights']), number(end['permissions']))
        yield '  %s  %-40s%7d%s' % (row['letter'], text, row['pages'], '%6d%%' % row['percent'] if row['percent'] else '    <1%')
    assert sum(row['pages'] for row in d['ends']) == d['pages']
    yield '     in all%41d' % d['pages']
    for stripe in d['map']:
        yield '  %016x  %s' % (number(stripe['va']), stripe['cells'])
        if stripe['rows'] > 1: yield '  ..                the same for %d row%s more' % (stripe['rows'] - 1, 's' if stripe['rows'] > 2 else '')
    for key in d['legend']: yield '  %s  %s' % (key['letter'], key['meaning'])


def ranges(documents):
    d, = documents
    yield 'ranges from %016x to %016x at EL%d: the regime is %s' % (number(d['va']), number(d['last']), d['el'], d['regime'])
    for r in d['ranges']:
        n = number(r['bytes'])
        shift, unit = next((shift, unit) for shift, unit in [(30, 'GiB'), (20, 'MiB'), (10, 'KiB')] if n % (1 << shift) == 0)
        yield '  %016x-%016x  %016x %5d %s  %s  level %d  Attr%d SH=%d%s%s%s' % (
            number(r['va']), number(r['last']), number(r['pa']), n >> shift, unit, rights(r['rights']), r['level'], r['attrindx'], r['sh'], ' NS=1' if r['ns'] else '',
            '' if r['every_asid'] else '  its ASID alone', {'no': '', 'partly': '  partly outside RAM', 'wholly': '  outside RAM'}[r['outside_ram']])
        assert number(r['last']) - number(r['va']) + 1 == n
    if d['stage1']: yield '%d range%s, %d pages of 4 KiB' % (len(d['ranges']), '' if len(d['ranges']) == 1 else 's', number(d['pages']))
    for m in d['memory']: yield '  Attr%d is %02x: %s' % (m['attrindx'], number(m['value']), m['memory'])


def windows(documents):
    d, = documents
    count = len(d['windows'])
    fault = lambda f: '%s (0x%02x)' % (f['fault'], number(f['status']))
    yield '%d window%s at EL%d, for a privileged write: the regime is %s' % (count, '' if count == 1 else 's', d['el'], d['regime'])
    for row in d['windows']:
        at = number(row['va'])
        for k, run in enumerate(row['runs']):
            va, last, answer = number(run['va']), number(run['last']), run['answer']
            assert va == at and last - va + 1 == run['pages'] << 12
            at = last + 1
            told = '%016x-%016x' % (number(answer['pa']), number(answer['pa']) + last - va) if 'pa' in answer else fault(answer)
            yield '  %s  %016x-%016x  %s' % ('  ' if k else '%2d' % row['window'], va, last, told)
        assert at == number(row['va']) + (row['pages'] << 12)
    found = d['found']
    if found['kind'] == 'apart': yield 'no two of %d windows share a page' % count
    elif found['kind'] == 'fault': yield 'window %d, page %d (%016x): %s' % (found['window'], found['page'], number(found['va']), fault(found['fault']))
    else:
        i, k = found['first'], found['second']
        for page in found['pages']:
            yield 'windows %d and %d share the physical page %x (page %d of %d, page %d of %d)' % (i, k, number(page['pa']), page['page_of_first'], i, page['page_of_second'], k)


def frames(documents):
    d, = documents
    named = lambda n, thing: '%d %s%s' % (n, thing, '' if n == 1 else 's')
    yield named(int(d['cycles']), 'cycle')
    for row in d['rates']:
        parts = row['parts_of_a_cycle']
        rest = named(row['rest'], 'cycle') if parts == 1 else '%d/%d of a cycle' % (row['rest'], parts)
        yield '  %d a second  %s and %s' % (row['frames_a_second'], named(int(row['frames']), 'frame'), rest)


def chord(documents):
    d, = documents
    heard = lambda h: '%d reads, %d tones lost' % (h['voices_read'], h['lost'])
    for v in d['voices']:
        yield '%8d   %-4s  %06x    %03x   %08x   %s' % (v['voice'], v['note'], number(v['va']), v['slot'], number(v['pa']), v['heard'])
    yield '   sixteen voices held: ' + heard(d['held'])
    name = {'proved': 'the proved core:', 'stale_cache': 'a stale cache:', 'no_tlbi': 'firmware without TLBI:', 'inner_shareable': 'TLBI VAE1IS:', 'local': 'TLBI VAE1:'}
    def rows(part):
        for c in part['changes']: yield '   %-22s %s' % (name[c['system']], heard(c))
        for t in part['orders']: yield '   %-22s %d orders, %s' % (name[t['system']], t['orders'], heard(t))
    yield from rows(d)
    yield '   The stale cache loses a tone in %d orders. The first of them, where two held keys read one page:' % d['orders'][1]['wrong']
    for events in d['first_wrong'].values():
        for e in events:
            keys = ''.join('   .              ' if k is None else '   %-4s-> %-4s%s' % (k['note'], k['heard'], '    ' if k['note'] == k['heard'] else 'LOST') for k in e['keys'])
            yield '     %-4s%s%s' % (e['key'], 'on ' if e['on'] else 'off', keys)
    yield from rows(d['panel'])
    yield 'the chord is whole' if d['whole'] else 'THE CHORD LOST A TONE'


def help(documents):
    d, = documents
    for call in d['calls']: yield call
    yield from d['details'].splitlines()


documents = [json.loads(line) for line in sys.stdin]
if sys.argv[1] != 'run':
    for text in heading(documents[0]): print(text)
for text in globals()[sys.argv[1]](documents): print(text.rstrip())
