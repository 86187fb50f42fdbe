/* What a machine shows: whether it is refused, its output, the words that the host reads. */
#include "shelf.h"

static const struct setup program_setup = {3, {3000, 2000}, {18000, 16800}, 9000, 10500, {0, 16800}};

/* Whether 1 <= safe <= largest <= 65534. */
static bool is_good_limit(const struct limit *l)
{
    return 1 <= l->safe && l->safe <= l->largest && l->largest <= 65534;
}

/* Whether a wake pair is in its ranges, the voltage also where the current is 0. */
static bool is_good_wake(const struct setup *s)
{
    return s->wake.milliamps <= 100 && s->wake.milliamps <= s->current.safe
        && 1 <= s->wake.millivolts && s->wake.millivolts <= s->voltage.safe;
}

/* Whether a setup is in its ranges: refusal 1 where it is not. Inline, since it is asked at every step. */
static inline bool is_good_setup(const struct setup *s)
{
    return (s->supported == 1 || s->supported == 3 || s->supported == 7 || s->supported == 15)
        && is_good_limit(&s->current) && is_good_limit(&s->voltage)
        && 0 < s->low && s->low < s->restart && is_good_wake(s);
}

/* Whether a nibble is 0 or one supported bay. */
static bool is_one_of(unsigned supported, unsigned nibble)
{
    return (nibble & (nibble - 1)) == 0 && (nibble & ~supported) == 0;
}

/* Whether a pack is where no bay is, or something is left of a pack that is gone. */
static bool is_stray(const struct bay *bay, bool supported)
{
    return bay->present ? !supported : bay->ok || bay->low || bay->was_read;
}

/* Whether a machine breaks a bound that every machine of a run keeps: refusal 15. */
static bool is_bad(const struct machine *m)
{
    unsigned supported = m->setup.supported;
    return !is_good_setup(&m->setup)
        || !is_one_of(supported, m->smb) || !is_one_of(supported, m->power)
        || !is_one_of(supported, m->charge) || !is_one_of(supported, m->next)
        || m->current.age > OLDEST || m->voltage.age > OLDEST || m->wake_age > OLDEST
        || is_stray(&m->bays[0], supported & 1) || is_stray(&m->bays[1], supported & 2)
        || is_stray(&m->bays[2], supported & 4) || is_stray(&m->bays[3], supported & 8);
}

/* The bay that a nibble names; the nibble is not 0. */
static const struct bay *bay_named(const struct machine *m, unsigned nibble)
{
    return &m->bays[__builtin_ctz(nibble)];
}

/* Whether a nibble names a bay that holds a pack. */
static bool is_present(const struct machine *m, unsigned nibble)
{
    return nibble != 0 && bay_named(m, nibble)->present;
}

/* Whether a bay can power the shelf. */
static bool is_candidate(const struct bay *bay)
{
    return bay->present && bay->ok && !bay->low;
}

/* The wanted bay if it is a candidate, else the first candidate by letter, else 0; never the bay `but`. */
static unsigned choose(const struct machine *m, unsigned but)
{
    if (m->next != 0 && m->next != but && is_candidate(bay_named(m, m->next)))
        return m->next;
    for (unsigned b = 0; b < BAYS; b++)
        if (1u << b != but && is_candidate(&m->bays[b]))
            return 1u << b;
    return 0;
}

/* The limit rule. */
static uint16_t limited(uint16_t word, const struct limit *l)
{
    if (word == 65535)
        return l->safe;
    return word < l->largest ? word : l->largest;
}

/* Whether the safety signal allows wake-up: plain or cold. */
static bool allows_waking(const struct bay *bay)
{
    return bay->was_read && 3000 <= bay->ohms && bay->ohms <= 100000;
}

/* Whether it allows charge on request: under range too, since lithium packs carry a fixed resistor of a few hundred ohms. */
static bool allows_request(const struct bay *bay)
{
    return allows_waking(bay) || (bay->was_read && bay->ohms < 500);
}

/* Whether wake-up is on and has not ended, by the time or by a word. */
static bool is_waking(const struct machine *m)
{
    return !m->spent && m->wake_age < OLDEST && m->setup.wake.milliamps != 0;
}

/* What the charger supplies: both limited requests, the wake pair, or 0 and 0. Inline, since it is asked after every step. */
static inline struct output output_of(const struct machine *m)
{
    struct output none = {0, 0};
    if (!m->ac || m->inhibit || m->hold || !is_present(m, m->charge))
        return none;
    const struct bay *bay = bay_named(m, m->charge);
    if (m->current.word == 0 || m->voltage.word == 0)
        return is_waking(m) && allows_waking(bay) ? m->setup.wake : none;
    if (!allows_request(bay))
        return none;
    struct output both = {limited(m->current.word, &m->setup.current), limited(m->voltage.word, &m->setup.voltage)};
    return both;
}

/* The safety signal as bits of ChargerStatus: 8 OR, 9 COLD, 10 HOT, 11 UR. */
static unsigned signal_bits(const struct bay *bay)
{
    if (!bay->was_read || bay->ohms > 100000)
        return 0x0300;
    if (bay->ohms > 30000)
        return 0x0200;
    if (bay->ohms >= 3000)
        return 0x0000;
    return bay->ohms >= 500 ? 0x0400 : 0x0C00;
}

/* ChargerStatus. */
static unsigned charger_status(const struct machine *m)
{
    unsigned word = 0x0010 | (unsigned)m->inhibit | (unsigned)m->hold << 12 | (unsigned)m->ac << 15;
    if (m->current.word > m->setup.current.largest)
        word |= 0x0040;
    if (m->voltage.word > m->setup.voltage.largest)
        word |= 0x0080;
    if (is_present(m, m->charge))
        return word | 0x4000 | signal_bits(bay_named(m, m->charge));
    return word | 0x0300;
}

/* SelectorState; POWER_BY is shown inverted while the output is on. */
static unsigned selector_state(const struct machine *m)
{
    unsigned power = output_of(m).milliamps != 0 ? m->power ^ 0xFu : m->power;
    unsigned word = (unsigned)m->smb << 12 | power << 8 | (unsigned)m->charge << 4;
    for (unsigned b = 0; b < BAYS; b++)
        word |= (unsigned)m->bays[b].present << b;
    return word;
}

/* SelectorPresets; USE_NEXT shows what would be taken. */
static unsigned selector_presets(const struct machine *m)
{
    unsigned word = choose(m, m->power) << 4;
    for (unsigned b = 0; b < BAYS; b++)
        word |= (unsigned)m->bays[b].ok << b;
    return word;
}
