/* Calls the three entries with memory of exact size between forbidden pages, and checks the
 * answers against what the rules state.
 *
 * A length of 0 comes with a pointer that is not null: it points to where the memory ends. */
#include "guard.h"
#include "tally.h"

int main(void)
{
    guard_settlings();
    guard_tables();
    return tally_end();
}
