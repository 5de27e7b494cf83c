/* Prints what each rule asks, with its section: a line for each number that is one, with tabs between number, sentence and section.
 * Status 0, or 1 where one of the two is told without the other. */
#include <wethlorn_rules.h>
#include <inttypes.h>
#include <stdio.h>

int main(void) {
    int is_wrong = 0;
    for (uint32_t rule = 0; rule < 100000; rule++) {
        const char *text = wethlorn_rule_text(rule), *section = wethlorn_rule_section(rule);
        is_wrong |= !text != !section;
        if (text && section)
            printf("%" PRIu32 "\t%s\t%s\n", rule, text, section);
    }
    return is_wrong || wethlorn_rule_text(UINT32_MAX) || wethlorn_rule_section(UINT32_MAX);
}
