/**
 * The rules of the room, as actions. Objects 0 to 5 are the figures (column, row, and a count that goes on while its player is
 * there), 6 to 14 the coins (column, row, and whose it is: a figure's number, 6 for the chest, -1 for nobody), 15 the chest.
 */

import { action, obj, when } from "./dimboetu.js";

export const SIDE = 8, FIGURES = 6, COINS = 9, CHEST = 15, IN_CHEST = 6, NOBODY = -1;
export const WORLD = { objects: 16, attributes: 3 };
export const NAMES = ["Ann", "Bob", "Cay", "Dan", "Eve", "Fay"];
export const coinObject = coin => FIGURES + coin;

const column = object => obj(object).attr(0), row = object => obj(object).attr(1), third = object => obj(object).attr(2);
const square = term => term.times(term);
/** Two objects stand in one place, or side by side. */
const isNear = (one, other) => square(column(one).minus(column(other))).max(square(row(one).minus(row(other)))).atMost(1);
const isHere = (one, other) => column(one).equals(column(other)).and(row(one).equals(row(other)));
const belongsTo = (coin, owner) => third(coinObject(coin)).equals(owner);
const giveTo = (coin, owner) => third(coinObject(coin)).set(owner);

/** One step, where the room goes on. */
export function step(me, across, down) {
    const place = across ? column(me) : row(me), by = across || down;
    return action(when(by > 0 ? place.lessThan(SIDE - 1) : place.moreThan(0), place.set(place.plus(by))));
}

export const take = (me, coin) => action(when(belongsTo(coin, NOBODY).and(isHere(me, coinObject(coin))), giveTo(coin, me)));
export const drop = (me, coin) => action(when(belongsTo(coin, me), [
    column(coinObject(coin)).set(column(me)), row(coinObject(coin)).set(row(me)), giveTo(coin, NOBODY)]));
export const give = (me, coin, other) => action(when(belongsTo(coin, me).and(isNear(me, other)), giveTo(coin, other)));
export const putIn = (me, coin) => action(when(belongsTo(coin, me).and(isNear(me, CHEST)), giveTo(coin, IN_CHEST)));
export const takeOut = (me, coin) => action(when(belongsTo(coin, IN_CHEST).and(isNear(me, CHEST)), giveTo(coin, me)));
/** The player is still there. */
export const beat = me => action(third(me).set(third(me).plus(1)));
