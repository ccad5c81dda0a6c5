/*
 * How a program enters the library: a call passes its arguments to the proved call of the same name, with a pointer that
 * is not null for each list of no elements. A proved call takes lists, whose pointers are never null, and C++ has a null
 * one for an empty std::vector.
 *
 * tools/compile compiles this file with the toolchain's clang, and adds it to the text of the library, in which the proved
 * call of `confscript_plan` is `proved_confscript_plan`. Nothing proves that these lines pass the arguments on. So that no
 * other file decides on that text, the file declares the types of include/confscript.h itself.
 */
typedef __SIZE_TYPE__ size_t;
typedef __UINT8_TYPE__ uint8_t;
typedef __UINT32_TYPE__ uint32_t;
typedef __UINT64_TYPE__ uint64_t;
struct change {
    uint32_t kind;
    uint64_t id;
};
struct answer {
    uint32_t status;
    uint64_t number;
};

/* The pointer to a list of `length` elements, or for none a pointer that is aligned for each type. */
static void *list(const void *elements, size_t length) {
    static uint64_t nothing;
    return length != 0 ? (void *)elements : &nothing;
}

/* CALL RESULT NAME PARAMETERS ARGUMENTS: a call, and the proved one, which has the same parameters. */
#define CALL(RESULT, NAME, PARAMETERS, ARGUMENTS) \
    RESULT proved_confscript_##NAME PARAMETERS; \
    RESULT confscript_##NAME PARAMETERS { return proved_confscript_##NAME ARGUMENTS; }

/* The arguments for a list: its pointer and its length. */
#define LIST(NAME) list(NAME, NAME##_len), NAME##_len

CALL(struct answer, status_text, (uint32_t status, uint8_t *out, size_t out_len), (status, LIST(out)))
CALL(struct answer, plan,
     (const uint8_t *configuration, size_t configuration_len, const uint8_t *target, size_t target_len, uint32_t strategy,
      uint32_t output, const uint64_t *down, size_t down_len, uint8_t *out, size_t out_len),
     (LIST(configuration), LIST(target), strategy, output, LIST(down), LIST(out)))
CALL(struct answer, apply,
     (const uint8_t *configuration, size_t configuration_len, const uint8_t *plan, size_t plan_len, uint8_t *out, size_t out_len),
     (LIST(configuration), LIST(plan), LIST(out)))
CALL(struct answer, check, (const uint8_t *configuration, size_t configuration_len), (LIST(configuration)))
CALL(uint64_t, committed, (const uint64_t *incoming, size_t incoming_len, const uint64_t *outgoing, size_t outgoing_len),
     (LIST(incoming), LIST(outgoing)))
CALL(struct answer, vote, (const uint8_t *incoming, size_t incoming_len, const uint8_t *outgoing, size_t outgoing_len),
     (LIST(incoming), LIST(outgoing)))
CALL(struct answer, restore, (const uint64_t *configuration, size_t configuration_len, uint64_t *out, size_t out_len),
     (LIST(configuration), LIST(out)))
CALL(struct answer, step,
     (const uint64_t *configuration, size_t configuration_len, uint32_t step, const struct change *changes, size_t changes_len,
      uint64_t *out, size_t out_len),
     (LIST(configuration), step, LIST(changes), LIST(out)))
CALL(struct answer, stages,
     (const uint64_t *configuration, size_t configuration_len, const uint64_t *target, size_t target_len, uint32_t strategy,
      const uint64_t *down, size_t down_len, uint64_t *out, size_t out_len),
     (LIST(configuration), LIST(target), strategy, LIST(down), LIST(out)))
CALL(struct answer, next,
     (const uint64_t *configuration, size_t configuration_len, const uint64_t *target, size_t target_len, uint32_t strategy,
      const uint64_t *down, size_t down_len, const uint64_t *view, size_t view_len, uint64_t *out, size_t out_len),
     (LIST(configuration), LIST(target), strategy, LIST(down), LIST(view), LIST(out)))
CALL(struct answer, may_be_down,
     (const uint64_t *incoming, size_t incoming_len, const uint64_t *outgoing, size_t outgoing_len, const uint64_t *uncounted,
      size_t uncounted_len),
     (LIST(incoming), LIST(outgoing), LIST(uncounted)))
