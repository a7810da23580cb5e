-- A drum may weigh 150 grams more or less, empty, than its tare on record: more would be paid for as crop.
local recorded = tares[drum.number]
if recorded == nil then
    return hold("no tare on record for drum " .. drum.number)
end
local drift = drum.tare - recorded
if drift < -0.150 or drift > 0.150 then
    return hold("tare is off by " .. drift .. " kg")
end
return pay((drum.gross - drum.tare) * price)
