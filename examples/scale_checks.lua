-- Checks of the scale's flags (4: it was not at rest, 8: it was not at zero before) and of its display.
--
-- It quarrels three times, in the functions of a table. The floor takes `4 ~= 0` first, a truth value that has no bits, and stops with an
-- error: a drum of 200 kg, 480.00, is not paid, be the scale at rest or not.
local checks = {
    rest = function(scale) return scale.flags & 4 ~= 0 end,
    zero = function(scale) return scale.flags & 8 ~= 0 end,
    display = function(scale) return scale.display ~= scale.gross .. " kg" end,
}

for name, fails in pairs(checks) do
    if fails(scale) then
        return hold("the scale failed its check: " .. name)
    end
end
return pay((scale.gross - drum.tare) * price)
