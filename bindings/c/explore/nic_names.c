/* Names of the 82540EM: registers, outcomes of steps, and fates of frames. */
#include "inside.h"

const char *const xi_outcomes[9] = { "nothing", "took", "put", "wirefull", "part", "moved", "done", "ticked", "fault" };
const char *const xi_fates[5] = { "off", "illegal", "filtered", "missed", "stored" };

static const struct nic82540em_register registers[] = {
    { "CTRL", NIC_CTRL },   { "STATUS", NIC_STATUS }, { "EERD", NIC_EERD },   { "MDIC", NIC_MDIC },
    { "VET", NIC_VET },     { "ICR", NIC_ICR },       { "ICS", NIC_ICS },     { "IMS", NIC_IMS },
    { "IMC", NIC_IMC },     { "RCTL", NIC_RCTL },     { "TCTL", NIC_TCTL },   { "PBA", NIC_PBA },
    { "RDBAL", NIC_RDBAL }, { "RDBAH", NIC_RDBAH },   { "RDLEN", NIC_RDLEN }, { "RDH", NIC_RDH },
    { "RDT", NIC_RDT },     { "TDBAL", NIC_TDBAL },   { "TDBAH", NIC_TDBAH }, { "TDLEN", NIC_TDLEN },
    { "TDH", NIC_TDH },     { "TDT", NIC_TDT },       { "MPC", NIC_MPC },     { "GPRC", NIC_GPRC },
    { "GPTC", NIC_GPTC },   { "RNBC", NIC_RNBC },
};
static const struct { const char *name; uint32_t from, to, step; } tables[] = {
    { "MTA", NIC_MTA, NIC_MTA + 512, 4 }, { "RAL", NIC_RAL, NIC_RAL + 128, 8 }, { "RAH", NIC_RAH, NIC_RAH + 128, 8 },
    { "VFTA", NIC_VFTA, NIC_VFTA + 512, 4 },
};

/* The name of a register of the 82540EM, or NULL */
const char *xi_nic_register(uint32_t offset)
{
    static char name[32];

    for (size_t n = 0; n < sizeof registers / sizeof *registers; n++)
        if (registers[n].offset == offset)
            return registers[n].name;
    for (size_t n = 0; n < sizeof tables / sizeof *tables; n++)
        if (offset >= tables[n].from && offset < tables[n].to && (offset - tables[n].from) % tables[n].step == 0) {
            snprintf(name, sizeof name, "%s[%u]", tables[n].name, (offset - tables[n].from) / tables[n].step);
            return name;
        }
    return NULL;
}

/* The offset of the first register of the table that has this one, or else the offset itself */
uint32_t xi_first_of_table(uint32_t offset)
{
    for (size_t n = 0; xi_is_nic() && n < sizeof tables / sizeof *tables; n++)
        if (offset >= tables[n].from && offset < tables[n].to && (offset - tables[n].from) % tables[n].step == 0)
            return tables[n].from;
    return offset;
}
