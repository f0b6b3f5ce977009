/* The two tables of calls. The library's functions are those that the header declares, and fit the table's types as they stand. */
#include "calls.h"

#include "../include/omphirun.h"
#include "reference.h"

const struct calls the_library = {"library",    omphirun_open, omphirun_mark, omphirun_mark_tree, omphirun_patch,
                                  omphirun_sign, omphirun_surface, omphirun_read_stl, omphirun_write_stl,
                                  omphirun_read_job, omphirun_write_job, omphirun_accept, omphirun_masks,
                                  omphirun_any_mark, omphirun_totals_true, omphirun_count_totals, omphirun_mark_all};

const struct calls the_reference = {"reference",    reference_open,    reference_mark, reference_mark_tree, reference_patch,
                                    reference_sign, reference_surface, reference_read_stl, reference_write_stl,
                                    reference_read_job, reference_write_job, reference_accept, reference_masks,
                                    reference_any_mark, reference_totals_true, reference_count_totals, reference_mark_all};
