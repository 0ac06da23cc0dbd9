// Decoding of soft words by it++, as `bench` calls it. A check is a row of eight words.

#include <cstddef>
#include <cstdint>
#include <itpp/comm/ldpc.h>

namespace {

struct Decoder {
    itpp::LDPC_Parity checks;
    itpp::LDPC_Code code;
    itpp::LLR_calc_unit unit;
    itpp::QLLRvec in, out;
};

} // namespace

// With a table of no entries its check nodes take the least magnitude, as min-sum does; else they are those of sum-product.
extern "C" void *shim_itpp_new(const uint64_t *words, size_t n, size_t m, size_t rounds, bool stops, bool sum_product) {
    Decoder *decoder = new Decoder;
    decoder->checks.initialize(m, n);
    for (size_t c = 0; c < m; c++)
        for (size_t b = 0; b < n; b++)
            if (words[8 * c + b / 64] >> (b % 64) & 1)
                decoder->checks.set(c, b, 1);
    decoder->unit = itpp::LLR_calc_unit(12, sum_product ? 300 : 0, 7);
    decoder->code.set_code(&decoder->checks, 0, false);
    decoder->code.set_llrcalc(decoder->unit);
    decoder->code.set_exit_conditions(rounds, stops, false);
    decoder->in.set_size(n);
    decoder->out.set_size(n);
    return decoder;
}

extern "C" void shim_itpp_delete(Decoder *decoder) {
    delete decoder;
}

// Writes a bit for each result.
extern "C" void shim_itpp_decode(Decoder *decoder, const float *received, uint8_t *bits) {
    for (int b = 0; b < decoder->in.size(); b++)
        decoder->in[b] = decoder->unit.to_qllr(received[b]);
    decoder->code.bp_decode(decoder->in, decoder->out);
    for (int b = 0; b < decoder->out.size(); b++)
        bits[b] = decoder->out[b] < 0;
}
