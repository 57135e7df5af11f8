// Tables that a press on a column's head sorts.

import { element } from './dom.js';
import { entryState, keepEntryState } from './storage.js';

/**
 * @typedef {object} Column
 * @property {string} id its name, as in an address
 * @property {string} head
 * @property {(row: any, ...context: any[]) => string | number} value its value for a row
 * @property {boolean} [isNumber]
 * @property {boolean} [isUp] whether its first order is ascending
 * @property {boolean} [isExtra] whether narrow windows hide it
 */

/**
 * By which column a table is sorted, and whether in ascending order.
 * @typedef {{ sort: string, isUp: boolean }} Order
 */

/** The order that the window's history has kept for a table, or its first one. @param {Order} first */
export const keptOrder = (first) => entryState().order ?? first;

/** Keeps the order of a table, so that it is the same when one comes back. @param {Order} order */
export const keepOrder = (order) => keepEntryState({ order });

/**
 * Sorted rows; those with equal values stay in their order.
 * @template Row
 * @param {Row[]} rows
 * @param {Column[]} columns
 * @param {Order} order
 * @param {any[]} context further arguments that the columns need
 * @returns {Row[]}
 */
export function sorted(rows, columns, { sort, isUp }, ...context) {
  const { value } = columns.find(({ id }) => id === sort);
  const sign = isUp ? 1 : -1;
  const values = new Map(rows.map((row) => [row, value(row, ...context)]));
  return [...rows].sort((row, other) => (
    values.get(row) < values.get(other) ? -sign : values.get(row) > values.get(other) ? sign : 0
  ));
}

/** The heads of a table. */
export class Heads {
  /**
   * @param {Column[]} columns
   * @param {Order} order
   * @param {(order: Order) => void} changed called with the order that a press asks for
   */
  constructor(columns, order, changed) {
    this.order = order;
    this.cells = columns.map(({ id, head, isNumber, isUp, isExtra }) => {
      const press = () => {
        this.mark({ sort: id, isUp: this.order.sort === id ? !this.order.isUp : Boolean(isUp) });
        changed(this.order);
      };
      return element('th', {
        scope: 'col',
        class: [isNumber ? 'number' : '', isExtra ? 'more' : ''].join(' ').trim(),
        'data-column': id,
      }, element('button', { type: 'button', class: 'sort', click: press }, head));
    });
    this.mark(order);
  }

  /** Marks the column of an order. @param {Order} order */
  mark(order) {
    this.order = order;
    for (const cell of this.cells) {
      if (cell.dataset.column === order.sort) cell.setAttribute('aria-sort', order.isUp ? 'ascending' : 'descending');
      else cell.removeAttribute('aria-sort');
    }
  }
}
