-- The premium by grade, in cents a kilogram. A drum without a grade gets none.
local premium = {A = 12, B = 5, C = 0}

local net = drum.gross - drum.tare
local cents = premium[drum.grade] or 0
-- both read these alike: what stands before the first ~= is a difference, what stands after it is cut off by `and`
if drum.gross - drum.tare ~= 0 and drum.grade ~= nil then
    return pay(net * price + net * cents / 100)
end
return pay(net * price)
