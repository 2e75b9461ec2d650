/* The least host of a board: it finds the header by <>, and the library is the header's. */
#include <am9517_board.h>
#include <stdio.h>

int main(void)
{
    am9517_board board = am9517_board_fresh(AM9517_EDITION_AM9517A, AM9517_EDITION_INTEL_8237A);
    const am9517_told grant = am9517_board_grant(&board);
    printf("library %u, header %u: %s\n", (unsigned)am9517_board_version(), (unsigned)AM9517_VERSION, am9517_refusal_text(grant.refusal));
    return am9517_board_version() == AM9517_VERSION && grant.refusal == AM9517_NOBODY && am9517_board_write(&board, 30, 0) == AM9517_OK ? 0 : 1;
}
