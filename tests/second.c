/* The reference a second time, under the library's names: it stands in for the library where the harness itself is tested. Its mark is the
   one that keeps to the triangle's bounding box, as the library's does. */
#define reference_open omphirun_open
#define reference_mark second_mark
#define reference_patch omphirun_patch
#define reference_sign omphirun_sign
#define reference_surface omphirun_surface
#define reference_read_stl omphirun_read_stl
#define reference_write_stl omphirun_write_stl
#define reference_read_job omphirun_read_job
#define reference_write_job omphirun_write_job
#define reference_accept omphirun_accept
#define reference_masks omphirun_masks
#define reference_any_mark omphirun_any_mark
#define reference_totals_true omphirun_totals_true
#define reference_count_totals omphirun_count_totals
#define reference_mark_near omphirun_mark
#define reference_mark_tree omphirun_mark_tree
#define reference_mark_all omphirun_mark_all
#define reference_add_marks second_add_marks
#define reference_add_marks_tree second_add_marks_tree
#define reference_judge_signs second_judge_signs
#define reference_recount second_recount
#define reference_rim_cells second_rim_cells

#include "reference.c"
#include "reference_accept.c"
#include "reference_mark.c"
#include "reference_mark_all.c"
#include "reference_patch.c"
#include "reference_stl.c"
#include "reference_write_stl.c"
#include "reference_tree.c"
#include "reference_job.c"
#include "reference_masks.c"
#include "reference_totals.c"
