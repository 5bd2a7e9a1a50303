// GLPK's simplex (libglpk-dev) on the linear program of a row. Its matrix is one of intervals, so that the best corner is a whole plan.
#include "peer.h"

#if __has_include(<glpk.h>)
#include <glpk.h>

#include <cmath>

struct GlpkModel : Model {
    glp_prob *lp = glp_create_prob();

    explicit GlpkModel(const Row &row)
    {
        int n = row.lo.size();
        glp_set_obj_dir(lp, GLP_MAX);
        glp_add_rows(lp, row.cells);
        if (n > 0) glp_add_cols(lp, n);
        for (int j = 0; j < row.cells; j++) glp_set_row_bnds(lp, j + 1, GLP_UP, 0, row.limits[j]);
        std::vector<int> cells(row.cells + 1);
        std::vector<double> ones(row.cells + 1, 1.0);
        for (int i = 0; i < n; i++) {
            for (int j = row.lo[i]; j < row.hi[i]; j++) cells[1 + j - row.lo[i]] = j + 1;
            glp_set_mat_col(lp, i + 1, row.hi[i] - row.lo[i], cells.data(), ones.data());
            glp_set_col_bnds(lp, i + 1, GLP_DB, 0, 1);
            glp_set_obj_coef(lp, i + 1, row.profit[i]);
        }
    }
    ~GlpkModel() override { glp_delete_prob(lp); }
    long long run() override
    {
        glp_smcp how;
        glp_init_smcp(&how);
        how.msg_lev = GLP_MSG_OFF;
        glp_std_basis(lp);  // from the start, whatever was found before
        if (glp_simplex(lp, &how) != 0 || glp_get_status(lp) != GLP_OPT) return -1;
        return std::llround(glp_get_obj_val(lp));
    }
    static std::unique_ptr<Model> build(const Row &row) { return std::make_unique<GlpkModel>(row); }
};

std::vector<Peer> glpk_simplex() { return {{"GLPK simplex", GlpkModel::build}}; }
#else
std::vector<Peer> glpk_simplex() { return {}; }
#endif
