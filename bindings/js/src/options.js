/** The options of a call. */

/** Returns the options, or throws if they aren't an object or one has another name than these. */
export function checkedOptions(call, options, names) {
    if (typeof options !== "object" || options === null) throw new TypeError(`the options of ${call} are ${String(options)}, and no object`);
    const other = Object.keys(options).find((name) => !names.includes(name));
    if (other !== undefined) throw new TypeError(`${call} has no option ${other}: its options are ${names.join(", ")}`);
    return options;
}
