/* Tries the calls of libpanel_c.a that are written out by hand. The status is 0 where there are some and none differs. */
#include "by_hand.h"

#include "report.h"

int main(void)
{
    lists_by_hand();
    separations_by_hand();
    canonicals_by_hand();
    tables_by_hand();
    return end_cases();
}
