-- What a kilogram pays, by its moisture in percent: the first row that is wide enough.
local tariff = {
    {upto = 8.0, pays = 2.40},
    {upto = 10.0, pays = 2.25},
    {upto = 12.5, pays = 1.95},
}

local net = drum.gross - drum.tare
for _, row in ipairs(tariff) do
    if drum.moisture <= row.upto then
        return pay(net * row.pays)
    end
end
return hold("moisture " .. drum.moisture .. " % is above " .. tariff[#tariff].upto .. " %")
